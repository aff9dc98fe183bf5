//! Logs in the text form that the check turns away, with 4 to 11.

use super::draft::{Draft, Numbers, ABORT, BEGIN, COMMIT, READ, WRITE};
use super::small;
use crate::rng::Rng;

/// The numbers of the check that a text can reach; a text has no word for a
/// kind that is not 1..5.
const NUMBERS: [u16; 7] = [4, 5, 6, 7, 8, 9, 11];

/// Each index aims at one number; now and then further damage is done.
pub fn draft(rng: &mut Rng, index: usize) -> Draft {
    let number = NUMBERS[index % NUMBERS.len()];
    let mut draft = sound(rng);
    while !damage(rng, &mut draft, number) {
        draft = sound(rng);
    }
    for _ in 0..rng.pick(&[0, 0, 0, 1, 2]) {
        let further = rng.pick(&NUMBERS);
        damage(rng, &mut draft, further);
    }
    draft
}

/// A small log with at least one step.
fn sound(rng: &mut Rng) -> Draft {
    loop {
        let draft = small::draft(rng);
        if !draft.steps.is_empty() {
            return draft;
        }
    }
}

/// Does the damage; false if there is no place for it.
fn damage(rng: &mut Rng, draft: &mut Draft, number: u16) -> bool {
    match number {
        4..=6 => spoil_number(rng, draft, number),
        7 => begin_again(rng, draft),
        8 => step_outside(rng, draft),
        9 => read_unwritten(rng, draft),
        _ => leave_open(rng, draft),
    }
}

fn spoil_number(rng: &mut Rng, draft: &mut Draft, number: u16) -> bool {
    if draft.steps.is_empty() {
        return false;
    }
    let place = rng.below(draft.steps.len());
    let step = &mut draft.steps[place];
    match (number, step[0]) {
        (4, _) => step[1] = rng.pick(&[0, 129, 130, 256, 257, 65535]),
        (5, READ | WRITE) => step[2] = rng.pick(&[64, 65, 128, 256, 65535]),
        (5, _) => step[2] = rng.pick(&[1, 63, 64, 65535]),
        (_, READ) => step[3] = rng.pick(&[129, 130, 256, 257, 65535]),
        _ => step[3] = rng.pick(&[1, 2, 128, 129, 65535]),
    }
    true
}

/// The places of the steps of these kinds.
fn places(draft: &Draft, kinds: &[u16]) -> Vec<usize> {
    (0..draft.steps.len())
        .filter(|&k| kinds.contains(&draft.steps[k][0]))
        .collect()
}

/// The place of some step of these kinds.
fn some_place(rng: &mut Rng, draft: &Draft, kinds: &[u16]) -> Option<usize> {
    let all = places(draft, kinds);
    if all.is_empty() {
        None
    } else {
        Some(rng.pick(&all))
    }
}

fn begin_again(rng: &mut Rng, draft: &mut Draft) -> bool {
    let Some(begin) = some_place(rng, draft, &[BEGIN]) else {
        return false;
    };
    let place = rng.between(begin + 1, draft.steps.len());
    draft.steps.insert(place, draft.steps[begin]);
    true
}

/// A begin is left out or comes too late, or a step comes behind the end.
fn step_outside(rng: &mut Rng, draft: &mut Draft) -> bool {
    let Some(begin) = some_place(rng, draft, &[BEGIN]) else {
        return false;
    };
    let Some(end) = some_place(rng, draft, &[COMMIT, ABORT]) else {
        return false;
    };
    match rng.below(3) {
        0 => {
            draft.steps.remove(begin);
        }
        1 => {
            let early = some_step(rng, draft.steps[begin][1]);
            let place = rng.between(0, begin);
            draft.steps.insert(place, early);
        }
        _ => {
            let late = some_step(rng, draft.steps[end][1]);
            let place = rng.between(end + 1, draft.steps.len());
            draft.steps.insert(place, late);
        }
    }
    true
}

/// A step that is no begin.
fn some_step(rng: &mut Rng, tx: u16) -> Numbers {
    match rng.below(4) {
        0 => [READ, tx, 0, 0],
        1 => [WRITE, tx, rng.pick(&[0, 1, 63]), 0],
        2 => [COMMIT, tx, 0, 0],
        _ => [ABORT, tx, 0, 0],
    }
}

/// A read from one that has not written the object, at times from itself or
/// from one that writes it later.
fn read_unwritten(rng: &mut Rng, draft: &mut Draft) -> bool {
    let Some(begin) = some_place(rng, draft, &[BEGIN]) else {
        return false;
    };
    let tx = draft.steps[begin][1];
    let ends = |s: &Numbers| s[1] == tx && (s[0] == COMMIT || s[0] == ABORT);
    let Some(length) = draft.steps[begin..].iter().position(ends) else {
        return false;
    };
    let place = rng.between(begin + 1, begin + length);
    let others: Vec<u16> = draft.steps.iter().map(|s| s[1]).collect();
    let from = match rng.below(3) {
        0 => tx,
        1 => rng.pick(&others),
        _ => rng.between(1, 128) as u16,
    };
    draft
        .steps
        .insert(place, [READ, tx, rng.pick(&[0, 1, 2, 63]), from]);
    true
}

fn leave_open(rng: &mut Rng, draft: &mut Draft) -> bool {
    let Some(end) = some_place(rng, draft, &[COMMIT, ABORT]) else {
        return false;
    };
    draft.steps.remove(end);
    true
}
