//! The judge of a proposal, whoever made it: says whether the commits that it
//! names are the ones to take back.

use crate::log::{check, refuse, Log, Refusal};
use crate::redo::{is_fine, taken_back, without};
use crate::report::{log_of, refused};
use crate::write::transactions;

/// A proposal has exactly this many numbers.
pub const PROPOSAL: usize = 128;

/// What the judge says to a run and a proposal: yes, no, or a number.
pub fn judge(run: &[u16], proposal: &[u16]) -> Result<bool, Refusal> {
    if proposal.len() != PROPOSAL {
        return refuse(12, 0);
    }
    judge_numbers(&check(run)?, proposal)
}

/// What it says to a text and the members of a list.
pub fn accepts(members: &[u16], text: &[u8]) -> String {
    said(log_of(text).and_then(|log| judge_numbers(&log, members)))
}

/// The line that says it.
pub fn said(answer: Result<bool, Refusal>) -> String {
    match answer {
        Ok(true) => "yes\n".to_string(),
        Ok(false) => "no\n".to_string(),
        Err(refusal) => refused(refusal),
    }
}

/// The members that a list names: numbers with commas between, or a dash for
/// none.
pub fn members(list: &str) -> Option<Vec<u16>> {
    if list == "-" {
        return Some(Vec::new());
    }
    transactions(list)
}

fn judge_numbers(log: &Log, numbers: &[u16]) -> Result<bool, Refusal> {
    if has_one_twice(numbers) || has_one_not_committed(log, numbers) || goes_on_after_zero(numbers)
    {
        return refuse(19, 0);
    }
    let members: Vec<usize> = named(numbers).collect();
    Ok(will_do(log, &members))
}

/// The log with these taken back is clean and has a version order, and turning
/// any single one back into a commit spoils one of the two.
pub fn will_do(log: &Log, members: &[usize]) -> bool {
    let is_needed = |&one: &usize| !is_fine(&taken_back(log, &without(members, one)));
    is_fine(&taken_back(log, members)) && members.iter().all(is_needed)
}

/// All that is not 0 is a member.
fn named(numbers: &[u16]) -> impl Iterator<Item = usize> + '_ {
    numbers.iter().filter(|&&n| n != 0).map(|&n| n as usize)
}

pub fn has_one_twice(numbers: &[u16]) -> bool {
    let all: Vec<usize> = named(numbers).collect();
    (0..all.len()).any(|place| all[..place].contains(&all[place]))
}

pub fn has_one_not_committed(log: &Log, numbers: &[u16]) -> bool {
    let committed = log.committed();
    named(numbers).any(|tx| !committed.contains(&tx))
}

pub fn goes_on_after_zero(numbers: &[u16]) -> bool {
    let mut after = numbers.iter().skip_while(|&&n| n != 0);
    after.any(|&n| n != 0)
}
