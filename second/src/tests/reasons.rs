//! Reasons on a cycle: which of several is given, and that just the edges
//! have one.

use super::short::reports;
use crate::graph::Graph;
use crate::log::{Kind, Log};
use crate::make::Sort;
use crate::reasons::{
    all_reasons, conflict_fits, first_reason, version_fits, with_reasons, Dependency, Fits, Reason,
    KINDS,
};
use crate::report::log_of;
use crate::verdicts::{clean, conflict_edges, version_edges, versions};

const COUNT: usize = 1500;

const REPORTS: [(&str, &str); 12] = [
    // on one object ww goes before rw
    (
        "b1 b2 r1x0 r2x0 w1x w2x c1 c2",
        "conflict=cycle 1 ww:0 2 rw:0; version=cycle 1 ww:0 2 rw:0",
    ),
    (
        "b1 w1x w1y c1 b2 w2x w2y c2 b3 r3x2 r3y1 c3",
        "conflict=order 1 2 3; version=cycle 2 wr:0 3 rw:1",
    ),
    (
        "b1 w1x c1 b2 w2x c2 b3 r3x1 w3x c3",
        "version=cycle 2 ww:0 3 rw:0; exact=order 1 3 2",
    ),
    (
        "b1 b2 r1x0 w1y w2x w2y c2 c1",
        "version=cycle 1 rw:0 2 ww:1; exact=order 1 2",
    ),
    // all three on one object, both ways
    (
        "b1 b2 r1x0 r2x0 w1x w2x r1x2 r2x2 w1x w2x c1 c2",
        "conflict=cycle 1 ww:0 2 ww:0",
    ),
    // on one object ww goes before wr
    (
        "b1 b2 r2x0 w1x r2x1 w2x c1 c2",
        "conflict=cycle 1 ww:0 2 rw:0; version=cycle 1 ww:0 2 rw:0",
    ),
    // and wr goes before rw
    (
        "b1 b2 r1x0 w2x w1x r2x2 c1 c2",
        "conflict=cycle 1 wr:0 2 ww:0; version=order 1 2",
    ),
    (
        "b1 b2 r1x0 w1x r2x1 w2x c2 c1",
        "conflict=order 1 2; version=cycle 1 wr:0 2 ww:0",
    ),
    // the lower object goes first, whatever the kinds
    (
        "b1 b2 r1x0 r2y0 w1y w2x w2y c1 c2",
        "conflict=cycle 1 rw:0 2 rw:1; version=cycle 1 rw:0 2 rw:1",
    ),
    (
        "b1 b2 w1x w1y r2z0 r2x1 w2y w1z c1 c2",
        "conflict=cycle 1 wr:0 2 rw:2; version=cycle 1 wr:0 2 rw:2",
    ),
    // in the conflict verdict any two steps count, in the version verdict only the next version
    (
        "b1 b2 b3 r3y0 w1x w2x w3x w1y c1 c2 c3",
        "conflict=cycle 1 ww:0 3 rw:1; version=cycle 1 ww:0 2 ww:0 3 rw:1",
    ),
    // steps of one who aborts give no reason
    (
        "b1 b3 b2 r1y0 w3x w1x r2x0 w1x w2y a3 c1 c2",
        "conflict=cycle 1 wr:0 2 rw:0; version=cycle 1 rw:1 2 rw:0",
    ),
];

#[test]
fn given() {
    for (short, lines) in REPORTS {
        reports(short, lines);
    }
}

/// Reasons stand with the member from which they lead, and the last leads
/// back to the first.
#[test]
fn around_the_cycle() {
    let reason = |obj| Reason {
        kind: Dependency::Rw,
        obj,
    };
    let by_number = |from: usize, _: usize, given: Reason| given == reason(from);
    let cycle = with_reasons(&[3, 9, 5], &by_number);
    assert_eq!(cycle, [(3, reason(3)), (9, reason(9)), (5, reason(5))]);
    let back = |from: usize, to: usize, given: Reason| given == reason(10 * from + to);
    let cycle = with_reasons(&[1, 4, 2], &back);
    assert_eq!(cycle, [(1, reason(14)), (4, reason(42)), (2, reason(21))]);
}

/// The made small logs.
fn logs() -> impl Iterator<Item = Log> {
    let all = (1..=COUNT).map(|index| Sort::Small.text(79, index));
    all.map(|text| log_of(&text).expect("small logs pass the check"))
}

/// An edge leads from one to another just when a reason does.
fn just_the_edges(log: &Log, graph: &Graph, fits: &Fits) {
    for from in log.committed() {
        for to in log.committed().into_iter().filter(|&to| to != from) {
            let has_reason = all_reasons().any(|reason| fits(from, to, reason));
            assert_eq!(graph.leads(from, to), has_reason);
        }
    }
}

#[test]
fn edges_have_reasons() {
    for log in logs() {
        just_the_edges(&log, &conflict_edges(&log), &|from, to, reason| {
            conflict_fits(&log, from, to, reason)
        });
        if clean(&log).is_none() {
            just_the_edges(&log, &version_edges(&log), &|from, to, reason| {
                version_fits(&log, from, to, reason)
            });
        }
    }
}

/// From, to, and a reason as its object and the place of its kind: what goes
/// first is the least.
type Drawn = (usize, usize, usize, usize);

/// One for each pair of steps.
fn conflicts(log: &Log) -> Vec<Drawn> {
    let mut all = Vec::new();
    for (k, late) in log.steps.iter().enumerate() {
        for early in &log.steps[..k] {
            let place = match (early.kind, late.kind) {
                (Kind::Write, Kind::Write) => 0,
                (Kind::Write, Kind::Read) => 1,
                (Kind::Read, Kind::Write) => 2,
                _ => continue,
            };
            if early.obj == late.obj {
                all.push((early.tx, late.tx, early.obj, place));
            }
        }
    }
    all
}

/// One for each two versions that follow one another, and those of each read.
fn dependencies(log: &Log) -> Vec<Drawn> {
    let mut all = Vec::new();
    for obj in 0..64 {
        for pair in versions(log, obj).windows(2) {
            all.push((pair[0], pair[1], obj, 0));
            let readers = log.judged_reads().into_iter();
            let of_this = readers.filter(|(_, r)| r.obj == obj && r.from == pair[0]);
            all.extend(of_this.map(|(_, r)| (r.tx, pair[1], obj, 2)));
        }
    }
    let reads = log.judged_reads().into_iter();
    all.extend(reads.map(|(_, r)| (r.from, r.tx, r.obj, 1)));
    all
}

/// The reason given for each edge is the least that is drawn; how many edges
/// have several on one object, and on several objects.
fn least_of(log: &Log, graph: &Graph, drawn: &[Drawn], fits: &Fits) -> [usize; 2] {
    let mut several = [0; 2];
    for from in log.committed() {
        for to in log.committed() {
            if !graph.leads(from, to) {
                continue;
            }
            let between = drawn.iter().filter(|d| (d.0, d.1) == (from, to));
            let mut reasons: Vec<_> = between.map(|d| (d.2, d.3)).collect();
            reasons.sort();
            reasons.dedup();
            let (obj, place) = reasons[0];
            let kind = KINDS[place];
            assert_eq!(first_reason(from, to, fits), Reason { kind, obj });
            several[0] += (reasons.len() > 1 && reasons[1].0 == obj) as usize;
            several[1] += reasons.iter().any(|r| r.0 != obj) as usize;
        }
    }
    several
}

/// Many edges have several reasons, and the least is given.
#[test]
fn the_least_is_given() {
    let mut several = [[0; 2]; 2];
    for log in logs() {
        let conflict = |from, to, reason| conflict_fits(&log, from, to, reason);
        let met = least_of(&log, &conflict_edges(&log), &conflicts(&log), &conflict);
        (0..2).for_each(|i| several[0][i] += met[i]);
        if clean(&log).is_none() {
            let version = |from, to, reason| version_fits(&log, from, to, reason);
            let met = least_of(&log, &version_edges(&log), &dependencies(&log), &version);
            (0..2).for_each(|i| several[1][i] += met[i]);
        }
    }
    assert!(several.iter().flatten().all(|&n| n > 100), "{several:?}");
}
