//! Steps that the live judge turns away, nearly always: each of its numbers,
//! and several on one step.

use super::draft::{Numbers, ABORT, BEGIN, COMMIT, READ, WRITE};
use crate::rng::Rng;

/// A bad step, with the transactions that are open and all that have begun;
/// surely none that makes a breach where the stream is calm.
pub fn step(rng: &mut Rng, open: &[u16], begun: &[u16], calm: bool) -> Numbers {
    let mut step = aimed(rng, open, begun, if calm { 7 } else { 8 });
    if rng.chance(1, 3) {
        spoil(rng, &mut step);
    }
    step
}

/// Each case aims at one number; of eight the last two may be good.
fn aimed(rng: &mut Rng, open: &[u16], begun: &[u16], cases: usize) -> Numbers {
    let someone = some(rng, open, 1);
    let highest = begun.last().copied().unwrap_or(0);
    match rng.below(cases) {
        0 => [bad_kind(rng), someone, 0, 0],
        1 => [rng.pick(&[BEGIN, READ, WRITE, COMMIT, ABORT]), 0, 0, 0],
        2 => bad_object(rng, someone, highest),
        3 => bad_source(rng, someone, highest),
        4 => [BEGIN, not_above(rng, begun), 0, 0],
        5 => outside(rng, open, begun),
        6 => [BEGIN, highest.saturating_add(1), 0, 0],
        _ => [
            rng.pick(&[READ, READ, WRITE, COMMIT, ABORT]),
            someone,
            rng.pick(&[0, 0, 1, 63]),
            rng.pick(&[0, 0, 1, 65_535]),
        ],
    }
}

/// One of these, or the other number if there is none.
fn some(rng: &mut Rng, numbers: &[u16], other: u16) -> u16 {
    if numbers.is_empty() {
        other
    } else {
        rng.pick(numbers)
    }
}

fn bad_kind(rng: &mut Rng) -> u16 {
    rng.pick(&[0, 6, 7, 255, 256, 257, 261, 65_535])
}

fn bad_object(rng: &mut Rng, someone: u16, highest: u16) -> Numbers {
    match rng.below(4) {
        0 => [READ, someone, rng.pick(&[64, 65, 128, 256, 65_535]), 0],
        1 => [WRITE, someone, rng.pick(&[64, 65, 128, 256, 65_535]), 0],
        2 => [BEGIN, highest.saturating_add(1), rng.pick(&[1, 63, 64]), 0],
        _ => [
            rng.pick(&[COMMIT, ABORT]),
            someone,
            rng.pick(&[1, 63, 64]),
            0,
        ],
    }
}

fn bad_source(rng: &mut Rng, someone: u16, highest: u16) -> Numbers {
    let source = rng.pick(&[1, 2, someone, 128, 65_535]);
    match rng.below(3) {
        0 => [BEGIN, highest.saturating_add(1), 0, source],
        1 => [WRITE, someone, 0, source],
        _ => [rng.pick(&[COMMIT, ABORT]), someone, 0, source],
    }
}

/// One that has begun, or a number between.
fn not_above(rng: &mut Rng, begun: &[u16]) -> u16 {
    let one = some(rng, begun, 1);
    match rng.below(3) {
        0 => rng.between(1, one as usize) as u16,
        1 => begun.last().copied().unwrap_or(1),
        _ => one,
    }
}

/// A step of one that has ended, or has not begun.
fn outside(rng: &mut Rng, open: &[u16], begun: &[u16]) -> Numbers {
    let ended: Vec<u16> = begun
        .iter()
        .copied()
        .filter(|tx| !open.contains(tx))
        .collect();
    let unknown = rng.between(1, 65_535) as u16;
    let next = begun.last().map_or(1, |last| last.saturating_add(1));
    let tx = match rng.below(3) {
        0 => unknown,
        1 => next,
        _ => some(rng, &ended, unknown),
    };
    match rng.below(4) {
        0 => [READ, tx, 0, rng.pick(&[0, 1, tx])],
        1 => [WRITE, tx, rng.pick(&[0, 1, 63]), 0],
        2 => [COMMIT, tx, 0, 0],
        _ => [ABORT, tx, 0, 0],
    }
}

/// One more fault on the same step.
fn spoil(rng: &mut Rng, step: &mut Numbers) {
    match rng.below(4) {
        0 => step[0] = bad_kind(rng),
        1 => step[1] = 0,
        2 => step[2] = rng.pick(&[1, 64, 65_535]),
        _ => step[3] = rng.pick(&[1, 129, 65_535]),
    }
}
