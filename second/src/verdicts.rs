//! The verdicts: clean, snapshot, and the edges of conflict and version.

use crate::graph::Graph;
use crate::log::{Kind, Log, Step, OBJECTS};
use crate::reasons::{conflict_fits, version_fits, with_reasons, Fits, Link};

/// What is wrong with the lowest faulty read, and its step.
#[derive(Clone, Copy, Debug, PartialEq, Eq)]
pub enum Fault {
    Own(usize),
    Aborted(usize),
    Unfinal(usize),
}

impl Fault {
    pub fn step(self) -> usize {
        match self {
            Fault::Own(step) | Fault::Aborted(step) | Fault::Unfinal(step) => step,
        }
    }
}

/// Which of order, cycle, none or unclean an answer is.
#[derive(Clone, Debug, PartialEq, Eq)]
pub enum Answer {
    Order(Vec<usize>),
    Cycle(Vec<Link>),
    None,
    Unclean(Fault),
}

/// The last committed writer of an object before a step, and the step at which
/// it committed; no writer where the store before the log is meant.
pub type LastCommitted = Option<(usize, usize)>;

/// What a wrong read should have found: the last committed writer, or after
/// its own write of the object the reader itself.
#[derive(Clone, Copy, Debug, PartialEq, Eq)]
pub enum Wanted {
    Committed(LastCommitted),
    Reader(usize),
}

/// Yes, or the lowest faulty step: a read with what it should have found, or a
/// commit with the partner.
#[derive(Clone, Copy, Debug, PartialEq, Eq)]
pub enum Snapshot {
    Yes,
    Read(usize, Wanted),
    Write(usize, usize),
}

/// No fault when no judged read from another comes after the reader's own
/// write of the object, and each has source 0, or a committed source that
/// writes the object in no later step.
pub fn clean(log: &Log) -> Option<Fault> {
    let reads = log.judged_reads_from_another();
    reads.iter().find_map(|&(k, read)| read_fault(log, k, read))
}

/// On one read own comes before aborted, and aborted before unfinal.
fn read_fault(log: &Log, k: usize, read: Step) -> Option<Fault> {
    if log.wrote(read.tx, read.obj, k) {
        Some(Fault::Own(k))
    } else if read.from == 0 {
        None
    } else if !log.is_committed(read.from) {
        Some(Fault::Aborted(k))
    } else if log.writes_later(read.from, read.obj, k) {
        Some(Fault::Unfinal(k))
    } else {
        None
    }
}

pub fn snapshot(log: &Log) -> Snapshot {
    for (k, step) in log.steps.iter().enumerate() {
        if !log.is_committed(step.tx) {
            continue;
        }
        if step.kind == Kind::Read && step.from != step.tx {
            if log.wrote(step.tx, step.obj, k) {
                return Snapshot::Read(k, Wanted::Reader(step.tx));
            }
            let right = last_committed(log, log.begin_of(step.tx), step.obj);
            if step.from != right.map_or(0, |(writer, _)| writer) {
                return Snapshot::Read(k, Wanted::Committed(right));
            }
        }
        if step.kind == Kind::Commit {
            if let Some(partner) = lowest_clashing_partner(log, step.tx) {
                return Snapshot::Write(k, partner);
            }
        }
    }
    Snapshot::Yes
}

/// The last transaction to commit, before this step, among the committed
/// writers of the object, and where it committed.
fn last_committed(log: &Log, before: usize, obj: usize) -> LastCommitted {
    let writers = log.committed_writers(obj).iter();
    writers
        .map(|&writer| (writer, log.commit_of(writer)))
        .filter(|&(_, commit)| commit < before)
        .max_by_key(|&(_, commit)| commit)
}

/// The lowest-numbered transaction that committed earlier, overlaps this one
/// and writes an object that this one writes.
fn lowest_clashing_partner(log: &Log, tx: usize) -> Option<usize> {
    let clashes = |&other: &usize| {
        log.commit_of(other) < log.commit_of(tx)
            && overlap(log, other, tx)
            && (0..OBJECTS).any(|obj| log.writes(other, obj) && log.writes(tx, obj))
    };
    log.committed().into_iter().find(clashes)
}

/// Each begins before the other commits.
fn overlap(log: &Log, one: usize, other: usize) -> bool {
    log.begin_of(one) < log.commit_of(other) && log.begin_of(other) < log.commit_of(one)
}

/// An edge joins two different committed transactions that touch one object,
/// at least one writing, the earlier step first.
pub fn conflict_edges(log: &Log) -> Graph {
    let mut graph = Graph::new(log.committed());
    let touching = |s: &&Step| s.touches() && log.is_committed(s.tx);
    let steps: Vec<&Step> = log.steps.iter().filter(touching).collect();
    for (k, late) in steps.iter().enumerate() {
        for early in &steps[..k] {
            let one_writes = early.kind == Kind::Write || late.kind == Kind::Write;
            if early.obj == late.obj && one_writes {
                graph.join(early.tx, late.tx);
            }
        }
    }
    graph
}

/// Writer 0 and then the committed writers of the object in commit order.
pub fn versions(log: &Log, obj: usize) -> Vec<usize> {
    let mut versions = vec![0];
    versions.extend(log.committed_writers(obj));
    versions
}

/// The edges of the version verdict, for a log whose reads are clean.
pub fn version_edges(log: &Log) -> Graph {
    let mut graph = Graph::new(log.committed());
    let all: Vec<Vec<usize>> = (0..OBJECTS).map(|obj| versions(log, obj)).collect();
    for versions in &all {
        for pair in versions.windows(2) {
            graph.join(pair[0], pair[1]);
        }
    }
    for (_, read) in log.judged_reads() {
        graph.join(read.from, read.tx);
        if let Some(writer) = version_after(&all[read.obj], read.from) {
            graph.join(read.tx, writer);
        }
    }
    graph
}

/// The writer of the version after this one.
pub fn version_after(versions: &[usize], version: usize) -> Option<usize> {
    let place = versions.iter().position(|&v| v == version)?;
    versions.get(place + 1).copied()
}

pub fn conflict(log: &Log) -> Answer {
    let fits = |from, to, reason| conflict_fits(log, from, to, reason);
    order_or_cycle(&conflict_edges(log), &fits)
}

pub fn version(log: &Log) -> Answer {
    let fits = |from, to, reason| version_fits(log, from, to, reason);
    match clean(log) {
        Some(fault) => Answer::Unclean(fault),
        None => order_or_cycle(&version_edges(log), &fits),
    }
}

/// Without a cycle the first order, with one the first shortest cycle and its
/// reasons.
fn order_or_cycle(graph: &Graph, fits: &Fits) -> Answer {
    match graph.first_shortest_cycle() {
        Some(cycle) => Answer::Cycle(with_reasons(&cycle, fits)),
        None => Answer::Order(
            graph
                .first_order()
                .expect("without a cycle there is an order"),
        ),
    }
}
