//! A judge that looks for cycles among those alone that it has not forgotten.
//! By the whole rule it misses none; by less it misses some.

use crate::live::{Said, HIGHEST};
use crate::log::{check_numbers, Kind, Step};
use crate::make::Answered;
use crate::room::{Room, Rule};
use crate::so_far::SoFar;
use crate::verdicts::version_edges;

/// Less than the rule.
pub const OVERLAPS_ALONE: Rule = Rule {
    overlaps: true,
    edges: false,
};
pub const EDGES_ALONE: Rule = Rule {
    overlaps: false,
    edges: true,
};

/// The good steps of a stream, up to the one where something comes to stand.
pub fn good_steps(stream: &[Answered]) -> Vec<(Step, Said)> {
    let calm = stream.iter().take_while(|(_, said)| !said.stands()).count();
    let until = &stream[..stream.len().min(calm + 1)];
    let good = until.iter().filter(|(_, said)| !said.refuses());
    let step = |numbers| check_numbers(numbers, HIGHEST).expect("a good step");
    good.map(|(numbers, said)| (step(numbers), *said)).collect()
}

/// Who forgets by this rule at every end misses the cycle that the stream
/// closes at last.
pub fn misses_cycle(rule: Rule, stream: &[Answered]) -> bool {
    let good = good_steps(stream);
    let steps: Vec<Step> = good.iter().map(|(step, _)| *step).collect();
    if good.last().map(|(_, said)| *said) != Some(Said::CycleClosed) {
        return false;
    }
    let mut kept = Vec::new();
    for k in (0..steps.len()).filter(|&k| steps[k].kind.ends()) {
        let so_far = SoFar::new(&steps[..=k]);
        if steps[k].kind == Kind::Commit {
            kept.extend(so_far.number(steps[k].tx));
        }
        if k + 1 < steps.len() {
            Room::new(&so_far).forget(rule, &mut kept);
        }
    }
    !version_edges(&SoFar::new(&steps).log).has_cycle_among(&kept)
}
