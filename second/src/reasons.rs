//! Reasons: the dependencies that lead from one transaction to another, and
//! which of several is given.

use crate::log::{Kind, Log, OBJECTS};
use crate::verdicts::{version_after, versions};

/// A write or a read of the one, and a write or a read of the other.
#[derive(Clone, Copy, Debug, PartialEq, Eq)]
pub enum Dependency {
    Ww,
    Wr,
    Rw,
}

/// In the order that decides on one object.
pub const KINDS: [Dependency; 3] = [Dependency::Ww, Dependency::Wr, Dependency::Rw];

impl Dependency {
    pub fn word(self) -> &'static str {
        match self {
            Dependency::Ww => "ww",
            Dependency::Wr => "wr",
            Dependency::Rw => "rw",
        }
    }

    /// The kinds of the two steps, the earlier one first.
    fn steps(self) -> (Kind, Kind) {
        match self {
            Dependency::Ww => (Kind::Write, Kind::Write),
            Dependency::Wr => (Kind::Write, Kind::Read),
            Dependency::Rw => (Kind::Read, Kind::Write),
        }
    }
}

/// Why a transaction leads to another.
#[derive(Clone, Copy, Debug, PartialEq, Eq)]
pub struct Reason {
    pub kind: Dependency,
    pub obj: usize,
}

/// A member of a cycle, and why it leads to the following one.
pub type Link = (usize, Reason);

/// Whether a reason leads from one transaction to another.
pub type Fits<'a> = dyn Fn(usize, usize, Reason) -> bool + 'a;

/// The cycle with its reasons; the last member leads back to the first.
pub fn with_reasons(cycle: &[usize], fits: &Fits) -> Vec<Link> {
    let following = cycle.iter().cycle().skip(1);
    let pairs = cycle.iter().zip(following);
    let link = |(&from, &to)| (from, first_reason(from, to, fits));
    pairs.map(link).collect()
}

/// The lowest object first, and on one object ww, wr, rw.
pub fn first_reason(from: usize, to: usize, fits: &Fits) -> Reason {
    all_reasons()
        .find(|&reason| fits(from, to, reason))
        .expect("an edge has a reason")
}

/// Every reason that may be given, first the one that goes before all others.
pub fn all_reasons() -> impl Iterator<Item = Reason> {
    (0..OBJECTS).flat_map(|obj| KINDS.map(|kind| Reason { kind, obj }))
}

/// Between two committed transactions: a step of the one and a later step of
/// the other touch the object, and are of these kinds. If any step of the one
/// comes before, its first does.
pub fn conflict_fits(log: &Log, from: usize, to: usize, reason: Reason) -> bool {
    let (early, late) = reason.kind.steps();
    let mut steps = log.steps.iter().filter(|step| step.obj == reason.obj);
    // What is left of the steps comes after the one found.
    let begun = steps.any(|step| step.kind == early && step.tx == from);
    begun && steps.any(|step| step.kind == late && step.tx == to)
}

/// Between two different committed transactions of a clean log: from a writer
/// to the writer of the next version; from a source to its reader; from a
/// reader to the writer of the version after the one read.
pub fn version_fits(log: &Log, from: usize, to: usize, reason: Reason) -> bool {
    let versions = versions(log, reason.obj);
    let reads_of = |tx: usize| {
        let reads = log.judged_reads().into_iter().map(|(_, read)| read);
        reads.filter(move |read| read.tx == tx && read.obj == reason.obj)
    };
    match reason.kind {
        Dependency::Ww => version_after(&versions, from) == Some(to),
        Dependency::Wr => reads_of(to).any(|read| read.from == from),
        Dependency::Rw => {
            reads_of(from).any(|read| version_after(&versions, read.from) == Some(to))
        }
    }
}
