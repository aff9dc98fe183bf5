//! Easy errors of a planner and of a judge, to see that the made logs tell them
//! apart: going through the members once, and versions as they were before
//! anything was taken back.

use crate::log::Log;
use crate::redo::{is_fine, taken_back, without};
use crate::verdicts::{clean, version_edges};

/// Each member, the lowest first, is given back if that leaves the log fine, and
/// is not looked at again.
pub fn given_back_once(log: &Log) -> Vec<usize> {
    let mut members = log.committed();
    for one in log.committed() {
        let rest = without(&members, one);
        if is_fine(&taken_back(log, &rest)) {
            members = rest;
        }
    }
    members
}

/// The judge, with the edges that the log had before the change, as far as they
/// join those still committed.
pub fn will_do_by_old_versions(log: &Log, members: &[usize]) -> bool {
    let edges = version_edges(log);
    let is_fine = |members: &[usize]| {
        let changed = taken_back(log, members);
        clean(&changed).is_none() && !edges.has_cycle_among(&changed.committed())
    };
    let is_needed = |&one: &usize| !is_fine(&without(members, one));
    is_fine(members) && members.iter().all(is_needed)
}
