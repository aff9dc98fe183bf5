//! In which manner a stream for the live judge goes on.

use super::stream::{LONGEST, USUAL};
use crate::live::ROOM;
use crate::rng::Rng;

/// Chances are in twenty-fourths.
#[derive(Clone)]
pub struct Manner {
    /// So many steps, if the stream does not stop before.
    pub length: usize,
    /// Transactions have higher numbers than this, and each at most so much
    /// more than the one before.
    pub above: u16,
    pub stride: usize,
    pub objects: Vec<u16>,
    /// At most so many are open at once, each with at most so many reads and
    /// writes.
    pub crowd: usize,
    pub touches: usize,
    pub begins: usize,
    /// So many of those open hold on, and hold the places of others, until
    /// there is no room.
    pub holders: usize,
    /// After so many good steps all others come at once.
    pub surge: usize,
    /// Those that only read, and of the others' steps the writes.
    pub readers: usize,
    pub writes: usize,
    pub aborts: usize,
    /// Reads with any source, and steps of any kind.
    pub strays: usize,
    pub bad: usize,
    /// For so many steps none has more than one read or write, no read strays,
    /// and of those open at once only one writes: no cycle is closed.
    pub calm: usize,
    /// A cycle is closed slowly.
    pub scene: bool,
    pub one_writer: bool,
    pub first_committer_wins: bool,
}

/// Each index has its manner.
pub fn manner(rng: &mut Rng, index: usize) -> Manner {
    let any = any(rng);
    match index % 12 {
        0 => quiet(any),
        1 => Manner {
            bad: 6,
            ..quiet(any)
        },
        2 => crowded(rng, any),
        3 | 4 => skewed(rng, any),
        5 => Manner {
            strays: 2,
            first_committer_wins: true,
            ..any
        },
        6 => Manner {
            strays: 0,
            writes: 14,
            first_committer_wins: false,
            ..any
        },
        7 => Manner {
            bad: rng.pick(&[0, 3, 12]),
            ..any
        },
        8 => long(rng, any),
        9 => holding(rng, any),
        10 => Manner {
            surge: rng.between(60, 300),
            ..holding(rng, any)
        },
        _ => filled(rng, any),
    }
}

/// Over few objects, with few open at once.
fn any(rng: &mut Rng) -> Manner {
    let choices: [&[u16]; 4] = [&[0], &[0, 1], &[1, 5, 62], &[0, 1, 2, 3, 31, 63]];
    Manner {
        length: rng.between(1, USUAL),
        above: rng.pick(&[0, 0, 0, 100, 127, 1000, 32_700, 65_000, 65_500]),
        stride: rng.pick(&[1, 1, 3, 500]),
        objects: rng.pick(&choices).to_vec(),
        crowd: rng.between(1, 6),
        touches: rng.between(1, 6),
        begins: rng.between(1, 12),
        holders: 0,
        surge: usize::MAX,
        readers: rng.between(0, 12),
        writes: rng.between(1, 14),
        aborts: rng.between(0, 8),
        strays: rng.pick(&[0, 0, 1, 3]),
        bad: rng.pick(&[0, 1, 3, 6]),
        calm: 0,
        scene: false,
        one_writer: rng.chance(1, 4),
        first_committer_wins: rng.chance(3, 4),
    }
}

/// A long way without breach and without a cycle.
fn quiet(any: Manner) -> Manner {
    Manner {
        length: USUAL,
        stride: any.stride.min(3),
        bad: any.bad.min(1),
        strays: 0,
        one_writer: true,
        first_committer_wins: true,
        ..any
    }
}

/// Snapshots that are kept, and cycles all the same.
fn skewed(rng: &mut Rng, any: Manner) -> Manner {
    let choices: [&[u16]; 3] = [&[0, 1], &[1, 5, 62], &[0, 1, 2, 63]];
    Manner {
        length: USUAL,
        objects: rng.pick(&choices).to_vec(),
        crowd: rng.between(3, 6),
        touches: rng.between(2, 5),
        begins: 12,
        writes: rng.between(4, 12),
        aborts: 1,
        strays: 0,
        bad: any.bad.min(1),
        one_writer: false,
        first_committer_wins: true,
        ..any
    }
}

/// More begin than there is room for, most of them at once.
fn crowded(rng: &mut Rng, any: Manner) -> Manner {
    Manner {
        length: USUAL,
        above: any.above.min(1000),
        stride: any.stride.min(3),
        crowd: rng.pick(&[20, 128, 140]),
        touches: any.touches.min(2),
        begins: rng.between(20, 22),
        strays: any.strays.min(1),
        ..any
    }
}

/// More than there are places, a few at a time; at last cycles and breaches.
fn long(rng: &mut Rng, any: Manner) -> Manner {
    let (calm, strays) = (rng.between(LONGEST / 2, LONGEST), rng.pick(&[0, 0, 0, 2]));
    Manner {
        length: LONGEST,
        above: any.above.min(32_700),
        stride: any.stride.min(100),
        aborts: rng.between(0, 3),
        strays,
        calm,
        scene: rng.chance(1, 2),
        ..skewed(rng, any)
    }
}

/// The same, with some that hold the places of the others.
fn holding(rng: &mut Rng, any: Manner) -> Manner {
    let holders = rng.between(1, 3);
    Manner {
        crowd: holders + rng.between(1, 3),
        holders,
        calm: rng.between(2 * LONGEST / 3, LONGEST),
        ..long(rng, any)
    }
}

/// All places are in use by those that are open, are given back, and so again.
fn filled(rng: &mut Rng, any: Manner) -> Manner {
    Manner {
        crowd: 2 * ROOM,
        touches: 1,
        begins: rng.pick(&[22, 24]),
        aborts: rng.between(2, 20),
        ..long(rng, any)
    }
}
