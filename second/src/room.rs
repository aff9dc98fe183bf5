//! Room given back: which committed transactions may be forgotten, and which
//! are kept when nothing more can go.

use crate::graph::Graph;
use crate::so_far::SoFar;
use crate::verdicts::version_edges;

/// What keeps a committed transaction: one that overlapped it has not ended; a
/// kept committed one has an edge to it.
#[derive(Clone, Copy)]
pub struct Rule {
    pub overlaps: bool,
    pub edges: bool,
}

pub const BOTH: Rule = Rule {
    overlaps: true,
    edges: true,
};

/// The log so far, in which nothing stands yet, and its version edges.
pub struct Room<'a> {
    so_far: &'a SoFar,
    edges: Graph,
}

impl Room<'_> {
    pub fn new(so_far: &SoFar) -> Room<'_> {
        Room {
            so_far,
            edges: version_edges(&so_far.log),
        }
    }

    /// The committed that are kept when nothing more can go.
    pub fn kept(&self) -> Vec<usize> {
        let mut kept = self.so_far.log.committed();
        self.forget(BOTH, &mut kept);
        kept
    }

    /// Forgets one at a time, always the first of the list that may go, until
    /// nothing more can.
    pub fn forget(&self, rule: Rule, kept: &mut Vec<usize>) {
        while let Some(place) = self.first_to_go(rule, kept) {
            kept.remove(place);
        }
    }

    fn first_to_go(&self, rule: Rule, kept: &[usize]) -> Option<usize> {
        kept.iter().position(|&tx| {
            let held = rule.overlaps && self.is_overlapped(tx);
            !held && !(rule.edges && self.is_pointed_at(kept, tx))
        })
    }

    /// One is open that began before this one committed.
    pub fn is_overlapped(&self, tx: usize) -> bool {
        let log = &self.so_far.log;
        let mut open = self.so_far.open.iter();
        open.any(|&one| log.begin_of(one) < log.commit_of(tx))
    }

    fn is_pointed_at(&self, kept: &[usize], tx: usize) -> bool {
        kept.iter().any(|&one| self.leads(one, tx))
    }

    /// A version edge leads from one committed transaction to the other.
    pub fn leads(&self, from: usize, to: usize) -> bool {
        self.edges.leads(from, to)
    }
}
