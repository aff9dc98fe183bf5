//! Small logs that pass the check and together reach every verdict.

use super::draft::Draft;
use super::play::{play, Cast, Manner, Sources};
use crate::rng::Rng;

pub fn draft(rng: &mut Rng) -> Draft {
    let count = transactions(rng);
    let cast = cast(rng, count);
    let manner = manner(rng);
    play(rng, &cast, manner)
}

/// 0 to 7 mostly, sometimes more.
fn transactions(rng: &mut Rng) -> usize {
    match rng.below(12) {
        0 => rng.between(0, 2),
        1..=4 => rng.between(3, 4),
        5..=9 => rng.between(5, 7),
        _ => rng.between(8, 10),
    }
}

pub fn cast(rng: &mut Rng, count: usize) -> Cast {
    let mut numbers = match rng.below(4) {
        0 | 1 => (1..=count as u16).collect(),
        2 => some_of(rng, 12, count),
        _ => some_of(rng, 128, count),
    };
    if rng.chance(3, 4) {
        rng.shuffle(&mut numbers);
    }
    let choices: [&[u16]; 5] = [&[0], &[0, 1], &[0, 1], &[0, 1, 2], &[5, 62, 63]];
    let objects = rng.pick(&choices).to_vec();
    let least = rng.between(0, 2);
    Cast {
        numbers,
        objects,
        least,
        most: least + rng.between(1, 4),
    }
}

/// So many different transactions, none above the highest.
fn some_of(rng: &mut Rng, highest: u16, count: usize) -> Vec<u16> {
    let mut all: Vec<u16> = (1..=highest).collect();
    rng.shuffle(&mut all);
    all.truncate(count);
    all.sort();
    all
}

pub fn manner(rng: &mut Rng) -> Manner {
    match rng.below(6) {
        0 => skewed(rng),
        1 => dirty(rng),
        2 => cached(rng),
        _ => mixed(rng),
    }
}

/// What snapshot isolation allows: now and then with a cycle.
fn skewed(rng: &mut Rng) -> Manner {
    Manner {
        crowd: rng.pick(&[6, 8, 12]),
        writes: rng.pick(&[3, 4]),
        aborts: 0,
        strays: 0,
        misses: 0,
        sources: Sources::Snapshot,
        first_committer_wins: true,
    }
}

/// Reads of what is not committed, and aborts.
fn dirty(rng: &mut Rng) -> Manner {
    Manner {
        crowd: rng.pick(&[5, 8, 12]),
        writes: rng.pick(&[5, 6, 8]),
        aborts: rng.pick(&[0, 2, 4]),
        strays: rng.pick(&[0, 2]),
        misses: rng.pick(&[0, 0, 4]),
        sources: Sources::LastWritten,
        first_committer_wins: false,
    }
}

/// What weak snapshot isolation allows: reads come from the snapshot, now and
/// then also after the reader's own write.
fn cached(rng: &mut Rng) -> Manner {
    Manner {
        writes: rng.pick(&[4, 6]),
        aborts: rng.pick(&[0, 0, 3]),
        misses: rng.pick(&[4, 8, 12]),
        ..skewed(rng)
    }
}

fn mixed(rng: &mut Rng) -> Manner {
    let sources = [
        Sources::Snapshot,
        Sources::LastCommitted,
        Sources::LastWritten,
        Sources::Any,
    ];
    Manner {
        crowd: rng.pick(&[0, 3, 5, 8, 12]),
        writes: rng.pick(&[2, 4, 5, 6, 9]),
        aborts: rng.pick(&[0, 0, 0, 2, 4]),
        strays: rng.pick(&[0, 0, 0, 1, 4]),
        misses: rng.pick(&[0, 0, 4, 12]),
        sources: rng.pick(&sources),
        first_committer_wins: rng.chance(1, 4),
    }
}
