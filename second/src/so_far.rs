//! The log so far: the steps that the live judge took, with open transactions
//! as aborted.

use std::collections::HashMap;

use crate::log::{Kind, Log, Step};

/// It numbers transactions by their begins, from 1 on, which keeps their order.
pub struct SoFar {
    pub log: Log,
    /// Those that have not ended.
    pub open: Vec<usize>,
    numbers: HashMap<usize, usize>,
}

impl SoFar {
    pub fn new(steps: &[Step]) -> SoFar {
        let all = begun(steps).into_iter();
        let numbers: HashMap<usize, usize> = all.zip(1..).collect();
        // a source that never began is in no judged read, where it would be a
        // wrong one, and becomes 0
        let number = |tx: usize| numbers.get(&tx).copied().unwrap_or(0);
        let mut whole: Vec<Step> = Vec::new();
        for step in steps {
            whole.push(Step {
                tx: number(step.tx),
                from: number(step.from),
                ..*step
            });
        }
        let open = not_ended(&whole, numbers.len());
        whole.extend(open.iter().map(|&tx| abort(tx)));
        SoFar {
            log: Log::new(whole),
            open,
            numbers,
        }
    }

    /// The number here of a transaction that has begun.
    pub fn number(&self, tx: usize) -> Option<usize> {
        self.numbers.get(&tx).copied()
    }
}

/// The transactions in the order of their begins, which rise.
pub fn begun(steps: &[Step]) -> Vec<usize> {
    let begins = steps.iter().filter(|s| s.kind == Kind::Begin);
    begins.map(|s| s.tx).collect()
}

fn not_ended(steps: &[Step], highest: usize) -> Vec<usize> {
    let mut open = vec![true; highest + 1];
    for step in steps.iter().filter(|s| s.kind.ends()) {
        open[step.tx] = false;
    }
    (1..=highest).filter(|&tx| open[tx]).collect()
}

fn abort(tx: usize) -> Step {
    Step {
        kind: Kind::Abort,
        tx,
        obj: 0,
        from: 0,
    }
}
