//! Proposals to be judged: the planner's own, others near to it, and some that
//! are turned away.

use std::collections::HashSet;

use crate::accepts::PROPOSAL;
use crate::log::{check, Log};
use crate::make::draft::COMMIT;
use crate::redo::{give_back, planned, without};
use crate::rng::Rng;

/// Those for a run, none twice, each without the zeros behind it.
pub fn proposals(rng: &mut Rng, run: &[u16]) -> Vec<Vec<u16>> {
    let committed = &commits(run);
    let [plan, other] = match check(run) {
        Ok(log) => [planned(&log), planned_otherwise(rng, &log)],
        Err(_) => [some(rng, committed), some(rng, committed)],
    };
    let mut members = vec![Vec::new(), committed.clone()];
    members.extend((0..3).map(|_| some(rng, committed)));
    members.extend(near(rng, &plan, committed));
    members.extend(near(rng, &other, committed));
    let mut all: Vec<Vec<u16>> = members.iter().map(|some| numbers(some)).collect();
    all.extend(flawed(rng, &numbers(&plan), &numbers(committed)));
    let mut met = HashSet::new();
    all.retain(|proposal| proposal.len() <= PROPOSAL && met.insert(proposal.clone()));
    all
}

/// The transactions with a commit step, the lowest first.
fn commits(run: &[u16]) -> Vec<usize> {
    let steps = run.chunks(4).filter(|s| s[0] == COMMIT);
    let mut all: Vec<usize> = steps.map(|s| s[1] as usize).collect();
    all.sort();
    all.dedup();
    all
}

/// As the planner, but any one is given back that leaves the log fine.
fn planned_otherwise(rng: &mut Rng, log: &Log) -> Vec<usize> {
    let mut members = log.committed();
    rng.shuffle(&mut members);
    give_back(log, members)
}

/// Some of them, in any order.
fn some(rng: &mut Rng, committed: &[usize]) -> Vec<usize> {
    let mut members = committed.to_vec();
    rng.shuffle(&mut members);
    members.truncate(rng.below(committed.len() + 1));
    members
}

/// The plan, the same the other way round, with one fewer, with one more, with
/// another in the place of one.
fn near(rng: &mut Rng, plan: &[usize], committed: &[usize]) -> Vec<Vec<usize>> {
    let mut all = vec![plan.to_vec(), plan.iter().rev().copied().collect()];
    let is_other = |tx: &usize| !plan.contains(tx);
    let others: Vec<usize> = committed.iter().copied().filter(is_other).collect();
    for _ in 0..2 {
        let fewer = some_but_one(rng, plan);
        if let Some(&tx) = others.get(rng.below(others.len().max(1))) {
            all.push([plan, &[tx]].concat());
            all.push([&fewer[..], &[tx]].concat());
        }
        all.push(fewer);
    }
    all
}

/// All of them but any one.
fn some_but_one(rng: &mut Rng, plan: &[usize]) -> Vec<usize> {
    match plan {
        [] => Vec::new(),
        _ => without(plan, rng.pick(plan)),
    }
}

/// The plan with a member twice, with one that isn't committed, with one after
/// a zero.
fn flawed(rng: &mut Rng, plan: &[u16], committed: &[u16]) -> Vec<Vec<u16>> {
    let mut all = Vec::new();
    if let Some((&last, rest)) = plan.split_last() {
        all.push([plan, &[rng.pick(plan)]].concat());
        all.push([&[last], plan].concat());
        all.push([rest, &[0, last]].concat());
        all.push([&[0], plan].concat());
        all.push(with_last(plan, rng.pick(plan)));
    }
    if let Some(&lowest) = committed.first() {
        let high = lowest.wrapping_add(rng.pick(&[128, 256, 512, 65_280]));
        all.push([plan, &[high]].concat());
        all.push(vec![lowest, lowest]);
        all.push(vec![0, lowest]);
        all.push(with_last(plan, lowest));
    }
    for _ in 0..2 {
        let stranger = stranger(rng, committed);
        all.push([plan, &[stranger]].concat());
        all.push([&[stranger], plan].concat());
        all.push(with_last(plan, stranger));
    }
    all.push(whole(rng, committed));
    all
}

/// The members, zeros, and one more as the last of all numbers.
fn with_last(plan: &[u16], last: u16) -> Vec<u16> {
    let mut proposal = plan.to_vec();
    proposal.resize(PROPOSAL, 0);
    proposal[PROPOSAL - 1] = last;
    proposal
}

/// The committed, and then others, without a zero.
fn whole(rng: &mut Rng, committed: &[u16]) -> Vec<u16> {
    let mut proposal = committed.to_vec();
    while proposal.len() < PROPOSAL {
        proposal.push(stranger(rng, committed));
    }
    proposal
}

/// A number that is no committed transaction's.
fn stranger(rng: &mut Rng, committed: &[u16]) -> u16 {
    let within: Vec<u16> = (1..=128).filter(|tx| !committed.contains(tx)).collect();
    if within.is_empty() || rng.chance(1, 2) {
        return rng.pick(&[129, 130, 200, 255, 256, 257, 32_768, 65_535]);
    }
    rng.pick(&within)
}

fn numbers(members: &[usize]) -> Vec<u16> {
    members.iter().map(|&tx| tx as u16).collect()
}
