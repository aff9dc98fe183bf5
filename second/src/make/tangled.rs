//! Logs with commits to redo: knots of transactions, played one into another.
//! Each knot has objects of its own, as long as there are enough of them.

use super::draft::{Draft, Numbers, ABORT, COMMIT, READ, WRITE};
use super::limits::enclose;
use super::play::{play, Cast, Manner, Sources};
use crate::rng::Rng;

/// Some indices aim at 128 that all have to go.
pub fn draft(rng: &mut Rng, index: usize) -> Draft {
    let mut left = numbers(rng, index);
    let objects: Vec<u16> = (0..64).collect();
    let mut objects = objects.into_iter().cycle().skip(rng.below(64));
    if index % 64 == 32 {
        let own: Vec<u16> = objects.take(left.len()).collect();
        return embrace(rng, &left, &own);
    }
    let most = rng.pick(&[3, 5, 128]);
    let mut knots = Vec::new();
    while !left.is_empty() {
        let highest = most.min(left.len());
        let least = if most == 128 { highest } else { 1 };
        let size = rng.between(least, highest);
        let members: Vec<u16> = left.drain(..size).collect();
        let own: Vec<u16> = objects.by_ref().take(size).collect();
        knots.push(knot(rng, &members, &own));
    }
    entwine(rng, knots)
}

/// Few transactions mostly; rising, falling or in any order.
fn numbers(rng: &mut Rng, index: usize) -> Vec<u16> {
    let count = match index % 16 {
        0 => 128,
        1 => rng.between(20, 127),
        2 | 3 => rng.between(8, 20),
        _ => rng.between(2, 7),
    };
    let highest = rng.pick(&[count, count, 128]) as u16;
    let mut numbers: Vec<u16> = (1..=highest).collect();
    rng.shuffle(&mut numbers);
    numbers.truncate(count);
    match rng.below(3) {
        0 => numbers.sort(),
        1 => numbers.sort_by(|a, b| b.cmp(a)),
        _ => {}
    }
    numbers
}

fn knot(rng: &mut Rng, members: &[u16], own: &[u16]) -> Draft {
    match rng.below(8) {
        0 => skew(rng, members, own),
        1 => updates(rng, members, own[0]),
        2 => embrace(rng, members, own),
        3 => {
            let steps = ladder(members, own);
            enclose(rng, members, steps)
        }
        4 | 5 => rotten_ladder(rng, members, own),
        _ => scramble(rng, members, own),
    }
}

/// Each reads what the following one writes later: one has to go.
fn skew(rng: &mut Rng, members: &[u16], own: &[u16]) -> Draft {
    let behind = |i: usize| own[(i + 1) % own.len()];
    let reads = (0..own.len()).map(|i| [READ, members[i], behind(i), 0]);
    let writes = (0..own.len()).map(|i| [WRITE, members[i], own[i], 0]);
    let steps = reads.chain(writes).collect();
    enclose(rng, members, steps)
}

/// All add to one sum: one alone can stay.
fn updates(rng: &mut Rng, members: &[u16], obj: u16) -> Draft {
    let reads = members.iter().map(|&tx| [READ, tx, obj, 0]);
    let writes = members.iter().map(|&tx| [WRITE, tx, obj, 0]);
    let steps = reads.chain(writes).collect();
    enclose(rng, members, steps)
}

/// Each reads what the following one wrote: all have to go.
fn embrace(rng: &mut Rng, members: &[u16], own: &[u16]) -> Draft {
    let count = own.len();
    let writes = (0..count).map(|i| [WRITE, members[i], own[i], 0]);
    let read = |i: usize, j: usize| [READ, members[i], own[j], members[j]];
    let reads = (0..count).map(|i| read(i, (i + 1) % count));
    let steps = writes.chain(reads).collect();
    enclose(rng, members, steps)
}

/// Each reads what the one before it wrote: none can be given back before that
/// one is.
fn ladder(members: &[u16], own: &[u16]) -> Vec<Numbers> {
    let mut steps = Vec::new();
    for (i, (&tx, &obj)) in members.iter().zip(own).enumerate() {
        if i > 0 {
            steps.push([READ, tx, own[i - 1], members[i - 1]]);
        }
        steps.push([WRITE, tx, obj, 0]);
    }
    steps
}

/// A ladder whose first member does not find its own write, or writes it over,
/// or aborts: it takes others along.
fn rotten_ladder(rng: &mut Rng, members: &[u16], own: &[u16]) -> Draft {
    let first = members[0];
    let mut steps = ladder(members, own);
    let way = rng.below(3);
    match way {
        0 => steps.insert(1, [READ, first, own[0], 0]),
        1 => steps.push([WRITE, first, own[0], 0]),
        _ => {}
    }
    let mut draft = enclose(rng, members, steps);
    if way == 2 {
        let end = draft
            .steps
            .iter_mut()
            .find(|s| **s == [COMMIT, first, 0, 0]);
        end.expect("the first commits")[0] = ABORT;
    }
    draft
}

/// Any reads and writes, of two objects at most.
fn scramble(rng: &mut Rng, members: &[u16], own: &[u16]) -> Draft {
    let cast = Cast {
        numbers: members.to_vec(),
        objects: own[..own.len().min(2)].to_vec(),
        least: 1,
        most: 4,
    };
    let sources = [Sources::Snapshot, Sources::LastWritten, Sources::Any];
    let manner = Manner {
        crowd: rng.pick(&[6, 12]),
        writes: rng.pick(&[4, 6]),
        aborts: rng.pick(&[0, 0, 1]),
        strays: 0,
        misses: rng.pick(&[0, 0, 1]),
        sources: rng.pick(&sources),
        first_committer_wins: false,
    };
    play(rng, &cast, manner)
}

/// The steps of all knots, those of each in their order.
fn entwine(rng: &mut Rng, mut knots: Vec<Draft>) -> Draft {
    let at_once = rng.pick(&[1, 3, 100]);
    let mut draft = Draft::default();
    while !knots.is_empty() {
        let which = rng.below(knots.len());
        let steps = &mut knots[which].steps;
        let count = at_once.min(steps.len());
        draft.steps.extend(steps.drain(..count));
        if steps.is_empty() {
            knots.remove(which);
        }
    }
    draft
}
