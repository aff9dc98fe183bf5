//! Logs at the limits: 1,024 steps, 128 transactions, object 63, cycles of 2
//! to 128 members, with one reason or two for each, the widest cycle, chains,
//! no edges, the longest text, and what lies just beyond.

use super::draft::{Draft, Numbers, BEGIN, COMMIT, READ, WRITE};
use super::play::{play, Cast, Manner, Sources};
use super::small;
use crate::rng::Rng;

/// Each index aims at one limit.
pub fn text(rng: &mut Rng, index: usize) -> Vec<u8> {
    let draft = match index % 19 {
        0 => full(rng, 128, 64),
        1 => full_with_few_objects(rng),
        2 => full(rng, 1, 64),
        3 => no_edges(rng),
        4 => chain(rng),
        5 => ring(rng, Bent::Nowhere),
        6 => ring(rng, Bent::ForVersion),
        7 => ring(rng, Bent::ForConflict),
        8 => wide_ring(rng),
        9 => all_write_one(rng),
        10 => nearly_nine(rng),
        11 => full(rng, 8, 64),
        12 => beyond_the_steps(rng),
        13 => last_step_beyond(rng),
        14 => serial_snapshot(rng),
        15 => two_rings(rng),
        16 => longest(rng),
        17 => widest(rng),
        _ => double_ring(rng),
    };
    let mut text = draft.text();
    if index % 19 == 12 && rng.chance(1, 2) {
        text = [b"steps=1025\n", &text[..]].concat();
    }
    text
}

fn shuffled(rng: &mut Rng, count: usize) -> Vec<u16> {
    let mut numbers: Vec<u16> = (1..=128).collect();
    rng.shuffle(&mut numbers);
    numbers.truncate(count);
    numbers
}

/// Exactly 1,024 steps of so many transactions, all alike in length.
fn full(rng: &mut Rng, count: usize, objects: u16) -> Draft {
    let each = 1024 / count - 2;
    let numbers = shuffled(rng, count);
    let cast = Cast {
        numbers,
        objects: (64 - objects..64).collect(),
        least: each,
        most: each,
    };
    let manner = small::manner(rng);
    play(rng, &cast, manner)
}

fn full_with_few_objects(rng: &mut Rng) -> Draft {
    let count = rng.pick(&[128, 64, 32, 16]);
    let objects = rng.pick(&[1, 2, 8, 32]);
    full(rng, count, objects)
}

/// Up to 1,024 steps that snapshot isolation allows.
fn serial_snapshot(rng: &mut Rng) -> Draft {
    let count = rng.pick(&[64, 100, 128]);
    let objects = (0..64).collect();
    let cast = Cast {
        numbers: shuffled(rng, count),
        objects,
        least: 0,
        most: 6,
    };
    let manner = Manner {
        crowd: rng.pick(&[0, 1, 3]),
        writes: 4,
        aborts: rng.below(2),
        strays: 0,
        misses: 0,
        sources: Sources::Snapshot,
        first_committer_wins: true,
    };
    play(rng, &cast, manner)
}

/// All begin, the steps are taken, all commit.
pub fn enclose(rng: &mut Rng, numbers: &[u16], steps: Vec<Numbers>) -> Draft {
    let mut numbers = numbers.to_vec();
    rng.shuffle(&mut numbers);
    let mut draft = Draft::default();
    draft
        .steps
        .extend(numbers.iter().map(|&tx| [BEGIN, tx, 0, 0]));
    draft.steps.extend(steps);
    rng.shuffle(&mut numbers);
    draft
        .steps
        .extend(numbers.iter().map(|&tx| [COMMIT, tx, 0, 0]));
    draft
}

/// 128 transactions that only read, or do nothing.
fn no_edges(rng: &mut Rng) -> Draft {
    let numbers = shuffled(rng, 128);
    let reads = numbers
        .iter()
        .filter(|&&tx| tx % 3 != 0)
        .map(|&tx| [READ, tx, tx % 64, 0]);
    let steps = reads.collect();
    enclose(rng, &numbers, steps)
}

/// Where the ring of one of the two graphs is broken.
#[derive(Clone, Copy, PartialEq)]
enum Bent {
    Nowhere,
    ForVersion,
    ForConflict,
}

/// Each member has an edge to the one behind it in both graphs, no other
/// edges. Every object serves for two: its one writer has an edge from the
/// reader of writer 0's version and an edge to the reader of its own.
fn links(members: &[u16], first: u16, bent: Bent) -> Vec<Numbers> {
    let mut steps = Vec::new();
    for (j, pair) in members.chunks(2).enumerate() {
        let obj = first + j as u16;
        let bent = if j == 0 { bent } else { Bent::Nowhere };
        let writer = pair.get(1).copied().unwrap_or(members[0]);
        let early = [READ, pair[0], obj, 0];
        let write = [WRITE, writer, obj, 0];
        let from = if bent == Bent::ForVersion { 0 } else { writer };
        steps.extend(if bent == Bent::ForConflict {
            [write, early]
        } else {
            [early, write]
        });
        if pair.len() == 2 {
            let reader = members[(2 * j + 2) % members.len()];
            steps.push([READ, reader, obj, from]);
        }
    }
    steps
}

/// The links without the last one, which would lead back.
fn chain(rng: &mut Rng) -> Draft {
    let count = rng.pick(&[128, 128, 127, 40, 9]);
    let mut members = shuffled(rng, count);
    if rng.chance(1, 2) {
        members.sort_by(|a, b| b.cmp(a));
    }
    let mut steps = links(&members, 0, Bent::Nowhere);
    let dropped = if count % 2 == 0 { 1 } else { 2 };
    steps.truncate(steps.len() - dropped);
    enclose(rng, &members, steps)
}

/// A ring of 2 to 128 members, and others that only read.
fn ring(rng: &mut Rng, bent: Bent) -> Draft {
    let size = match rng.below(4) {
        0 => rng.between(2, 9),
        1 => rng.pick(&[127, 128]),
        _ => rng.between(2, 128),
    };
    let numbers = shuffled(rng, 128);
    let readers = numbers[size..].iter().map(|&tx| [READ, tx, tx % 64, 0]);
    let steps = readers.chain(links(&numbers[..size], 0, bent)).collect();
    enclose(rng, &numbers, steps)
}

/// A ring of many members in a log of exactly 1,024 steps; reads repeated.
fn wide_ring(rng: &mut Rng) -> Draft {
    let size = rng.pick(&[120, 126, 127, 128]);
    let members = shuffled(rng, size);
    let mut steps = links(&members, 0, Bent::Nowhere);
    let again: Vec<Numbers> = steps.iter().copied().filter(|s| s[3] != 0).collect();
    while steps.len() + 2 * size < 1024 {
        steps.push(rng.pick(&again));
    }
    enclose(rng, &members, steps)
}

/// Two rings of one size, or of two sizes.
fn two_rings(rng: &mut Rng) -> Draft {
    let size = rng.between(2, 60);
    let other = if rng.chance(2, 3) {
        size
    } else {
        rng.between(2, 60)
    };
    let numbers = shuffled(rng, size + other);
    let mut steps = links(&numbers[..size], 0, Bent::Nowhere);
    steps.extend(links(&numbers[size..], 32, Bent::Nowhere));
    enclose(rng, &numbers, steps)
}

/// A ring with two links from each member to the one behind it: one by a read
/// of an older version and one by a read of a new one, on objects that come in
/// any order.
fn double_ring(rng: &mut Rng) -> Draft {
    let size = rng.between(2, 63);
    let mut members = shuffled(rng, size);
    let mut steps = links(&members, 0, Bent::Nowhere);
    members.rotate_left(1);
    steps.extend(links(&members, 32, Bent::Nowhere));
    let mut objects: Vec<u16> = (0..64).collect();
    rng.shuffle(&mut objects);
    for step in &mut steps {
        step[2] = objects[step[2] as usize];
    }
    enclose(rng, &members, steps)
}

/// 128 writers of object 63, one after another: every pair has an edge.
fn all_write_one(rng: &mut Rng) -> Draft {
    let mut draft = Draft::default();
    for tx in shuffled(rng, 128) {
        draft.begin(tx);
        draft.write(tx, 63);
        draft.commit(tx);
    }
    draft
}

/// 8, 9 or 10 transactions that all commit.
fn nearly_nine(rng: &mut Rng) -> Draft {
    let count = rng.between(8, 10);
    let cast = small::cast(rng, count);
    let mut manner = small::manner(rng);
    manner.aborts = 0;
    manner.first_committer_wins = false;
    play(rng, &cast, manner)
}

/// The longest text: one transaction writes once and reads that 1,021 times,
/// with as many digits as the numbers may have.
fn longest(rng: &mut Rng) -> Draft {
    let tx = rng.between(100, 128) as u16;
    let obj = rng.between(10, 63) as u16;
    let mut draft = Draft::default();
    draft.begin(tx);
    draft.write(tx, obj);
    for _ in 0..1021 {
        draft.read(tx, obj, tx);
    }
    draft.commit(tx);
    draft
}

/// The widest cycle: 128 writers of one object, one after another, and the
/// last reads another object from before the first wrote it. Both objects have
/// two digits. Each may also read what the one before it has written.
fn widest(rng: &mut Rng) -> Draft {
    let obj = rng.between(10, 62) as u16;
    let reads = rng.chance(1, 2);
    let numbers = shuffled(rng, 128);
    let mut draft = Draft::default();
    let mut before = 0;
    for &tx in &numbers {
        draft.begin(tx);
        if before == 0 {
            draft.write(tx, obj);
        }
        if tx == numbers[127] {
            draft.read(tx, obj, 0);
        }
        if reads {
            draft.read(tx, obj + 1, before);
        }
        draft.write(tx, obj + 1);
        draft.commit(tx);
        before = tx;
    }
    draft
}

/// 1,025 steps, sound apart from their number.
fn beyond_the_steps(rng: &mut Rng) -> Draft {
    let mut draft = full(rng, 64, 64);
    let tx = draft.steps[1023][1];
    draft.steps.insert(1023, [WRITE, tx, 63, 0]);
    draft
}

/// 1,024 steps with the last one beyond a limit.
fn last_step_beyond(rng: &mut Rng) -> Draft {
    let mut draft = full(rng, 64, 64);
    let last = &mut draft.steps[1023];
    match rng.below(4) {
        0 => last[1] = 129,
        1 => *last = [WRITE, last[1], 64, 0],
        2 => *last = [READ, last[1], 63, 129],
        _ => *last = [WRITE, last[1], 63, 0],
    }
    draft
}
