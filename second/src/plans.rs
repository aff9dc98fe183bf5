//! Logs with what the planner brings for each, and proposals with what the
//! judge says, for a test that calls both.

use crate::accepts::{judge, said, PROPOSAL};
use crate::log::Refusal;
use crate::proposals::proposals;
use crate::redo::redo;
use crate::report::words;
use crate::rng::Rng;
use crate::text::read_run;

/// The salt of the proposals.
const SALT: u64 = 8;

/// A proposal without the zeros behind it, and what the judge says to it.
pub type Judged = (Vec<u16>, Result<bool, Refusal>);

/// What the planner answers to a text; where the text is in form, then a line
/// for each proposal with its numbers and the judge's answer.
pub fn lines(seed: u64, index: u64, text: &[u8]) -> String {
    let mut all = redo(text);
    if let Ok(run) = read_run(text) {
        for (proposal, answer) in judged(seed, index, &run) {
            let numbers: Vec<usize> = proposal.iter().map(|&n| n as usize).collect();
            all += &format!("{}: {}", words("accepts", &numbers), said(answer));
        }
    }
    all
}

/// The proposals for a run, with the judge's answers.
pub fn judged(seed: u64, index: u64, run: &[u16]) -> Vec<Judged> {
    let rng = &mut Rng::new(seed, SALT, index);
    let all = proposals(rng, run).into_iter();
    all.map(|proposal| (proposal.clone(), judge(run, &filled(proposal))))
        .collect()
}

/// All 128 numbers of it.
pub fn filled(mut proposal: Vec<u16>) -> Vec<u16> {
    proposal.resize(PROPOSAL, 0);
    proposal
}
