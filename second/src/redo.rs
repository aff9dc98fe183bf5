//! Which commits to redo: the log with some commits taken back, and our own
//! planner.

use crate::log::{Kind, Log, Step};
use crate::report::{log_of, refused, words};
use crate::verdicts::{clean, version, Answer};

/// The line that says what the planner proposes for a text's log, or that of
/// the refusal.
pub fn redo(text: &[u8]) -> String {
    match log_of(text) {
        Ok(log) => words("redo", &planned(&log)) + "\n",
        Err(refusal) => refused(refusal),
    }
}

/// At first every commit is taken back; then, again and again, the lowest is
/// given back that leaves the log fine, until none does.
pub fn planned(log: &Log) -> Vec<usize> {
    give_back(log, log.committed())
}

/// Of the members taken back, gives back again and again the first that leaves
/// the log fine, until none does.
pub fn give_back(log: &Log, mut members: Vec<usize>) -> Vec<usize> {
    while let Some(one) = first_to_go(log, &members) {
        members = without(&members, one);
    }
    members
}

fn first_to_go(log: &Log, members: &[usize]) -> Option<usize> {
    let may_go = |&one: &usize| is_fine(&taken_back(log, &without(members, one)));
    members.iter().copied().find(may_go)
}

/// The log is clean and has a version order.
pub fn is_fine(log: &Log) -> bool {
    clean(log).is_none() && matches!(version(log), Answer::Order(_))
}

/// The log with the commits of these turned into aborts. Its versions are
/// counted afresh.
pub fn taken_back(log: &Log, members: &[usize]) -> Log {
    let changed = |step: &Step| match step.kind {
        Kind::Commit if members.contains(&step.tx) => Step {
            kind: Kind::Abort,
            ..*step
        },
        _ => *step,
    };
    Log::new(log.steps.iter().map(changed).collect())
}

/// The members but one.
pub fn without(members: &[usize], one: usize) -> Vec<usize> {
    members.iter().copied().filter(|&m| m != one).collect()
}
