//! The outcomes of the planner and of the judge.

use crate::accepts::{goes_on_after_zero, has_one_not_committed, has_one_twice};
use crate::astray::{given_back_once, will_do_by_old_versions};
use crate::log::{Log, TRANSACTIONS};
use crate::plans::{judged, Judged};
use crate::redo::{is_fine, planned, taken_back, without};
use crate::report::log_of;
use crate::text::read_run;
use crate::verdicts::clean;

/// What a text's log comes to, and the proposals for it.
pub fn of_text(seed: u64, index: usize, text: &[u8]) -> Vec<String> {
    let Ok(run) = read_run(text) else {
        return Vec::new();
    };
    let judged = judged(seed, index as u64, &run);
    let met = match log_of(text) {
        Ok(log) => {
            let plan = planned(&log);
            [of_planner(&log, &plan), of_judge(&log, &plan, &judged)].concat()
        }
        Err(_) => vec!["a number of the log"],
    };
    met.into_iter().map(|one| one.to_string()).collect()
}

fn of_planner(log: &Log, plan: &[usize]) -> Vec<&'static str> {
    let mut met = vec![match plan.len() {
        0 => "redo, nothing",
        1 => "redo, one",
        TRANSACTIONS => "redo, all 128",
        _ => "redo, several",
    }];
    if !plan.is_empty() && clean(log).is_none() {
        met.push("redo, for a cycle");
    }
    if clean(log).is_some() {
        met.push("redo, for an unclean read");
    }
    if plan.iter().any(|&one| reads_from_one(log, one, plan)) {
        met.push("redo, one that reads from another");
    }
    if given_back_once(log) != plan {
        met.push("redo, and going through them once is not enough");
    }
    met
}

/// One reads from another of the members.
fn reads_from_one(log: &Log, one: usize, members: &[usize]) -> bool {
    let mut reads = log.judged_reads_from_another().into_iter();
    reads.any(|(_, read)| read.tx == one && members.contains(&read.from))
}

fn of_judge(log: &Log, plan: &[usize], judged: &[Judged]) -> Vec<&'static str> {
    let mut met = Vec::new();
    for (proposal, said) in judged {
        let members: Vec<usize> = proposal.iter().map(|&n| n as usize).collect();
        match said {
            Ok(answer) => met.extend(of_answer(log, &members, *answer)),
            Err(_) => met.push(of_flaws(log, proposal)),
        }
        if *said == Ok(true) {
            met.extend(of_yes(log, plan, &members));
        }
    }
    met
}

fn of_answer(log: &Log, members: &[usize], answer: bool) -> Vec<&'static str> {
    let changed = taken_back(log, members);
    let mut met = vec![match answer {
        true if members.is_empty() => "yes, to none",
        true => "yes, to some",
        false if clean(&changed).is_some() => "no, unclean",
        false if !is_fine(&changed) => "no, a cycle",
        false => "no, one can be spared",
    }];
    if answer != will_do_by_old_versions(log, members) {
        met.push("the other answer by versions as they were");
    }
    met
}

/// What turning a member back would spoil, and which proposals do that the
/// planner would not make.
fn of_yes(log: &Log, plan: &[usize], members: &[usize]) -> Vec<&'static str> {
    let mut met = Vec::new();
    for &one in members {
        met.push(match clean(&taken_back(log, &without(members, one))) {
            Some(_) => "yes, one would spoil clean",
            None => "yes, one would spoil the order",
        });
    }
    let mut rising = members.to_vec();
    rising.sort();
    if members != rising {
        met.push("yes, not rising");
    }
    if rising != plan {
        met.push("yes, another than the planner's");
    }
    if members.len() == TRANSACTIONS {
        met.push("yes, to all 128");
    }
    met
}

/// Why a proposal is turned away, where it has a single flaw.
fn of_flaws(log: &Log, proposal: &[u16]) -> &'static str {
    let twice = has_one_twice(proposal);
    let not_committed = has_one_not_committed(log, proposal);
    let after_zero = goes_on_after_zero(proposal);
    match (twice, not_committed, after_zero) {
        (true, false, false) => "19, one twice",
        (false, true, false) if is_above_128(proposal) => "19, one above 128",
        (false, true, false) => "19, one not committed",
        (false, false, true) => "19, one after a zero",
        _ => "19, for several flaws",
    }
}

fn is_above_128(proposal: &[u16]) -> bool {
    proposal.iter().any(|&n| n as usize > TRANSACTIONS)
}

pub const PLANS: [&str; 25] = [
    "redo, nothing",
    "redo, one",
    "redo, several",
    "redo, all 128",
    "redo, for a cycle",
    "redo, for an unclean read",
    "redo, one that reads from another",
    "redo, and going through them once is not enough",
    "yes, to none",
    "yes, to some",
    "yes, to all 128",
    "yes, not rising",
    "yes, another than the planner's",
    "yes, one would spoil clean",
    "yes, one would spoil the order",
    "no, unclean",
    "no, a cycle",
    "no, one can be spared",
    "the other answer by versions as they were",
    "19, one twice",
    "19, one not committed",
    "19, one above 128",
    "19, one after a zero",
    "19, for several flaws",
    "a number of the log",
];
