//! The points that were settled: checks, verdicts and "next", each with its
//! answer.

use super::short::{checked, list, log, loose_list, next, reports, run};

const CHECKS: [(&str, &str); 14] = [
    ("b1 r1x2 a1", "9 at 1"),
    ("b1 w1x r1x0 a1", "ok"),
    ("b1 w1x a1 b2 r2x1 c2", "ok"),
    ("b1 r1x1 w1x c1", "9 at 1"),
    ("b1 b2 r1x2 w2x c2 c1", "9 at 2"),
    ("b1 w1x r1x2 c1", "9 at 2"),
    ("b1 c1 b1 c1", "7 at 2"),
    ("b1 c1 c1", "8 at 2"),
    ("w1x", "8 at 0"),
    ("b7 b3", "11 at 3"),
    ("b1 b1", "7 at 1"),
    ("b1 a1 w1x", "8 at 2"),
    ("b1 w1x r1x1 c1", "ok"),
    ("b2 w2x c2 b1 w1x r1x2 c1", "ok"),
];

#[test]
fn checks() {
    for (short, answer) in CHECKS {
        assert_eq!(checked(&run(short)), answer, "{short}");
    }
}

const REPORTS: [(&str, &str); 17] = [
    (
        "b1 w1x b2 r2x1 c2 c1",
        "clean=yes; snapshot=read at 3 wants 0; version=order 1 2; exact=order 1 2",
    ),
    ("b1 w1x b2 r2x1 c2 w1x c1", "clean=unfinal at 3"),
    ("b1 w1x b2 r2x1 w1x c2 a1", "clean=aborted at 3"),
    ("b1 w1x w1x b2 r2x1 w1y c1 c2", "clean=yes"),
    ("b1 w1x r1x1 w1x c1", "clean=yes"),
    (
        "b10 c10 b9 c9",
        "conflict=order 9 10; version=order 9 10; exact=order 9 10",
    ),
    (
        "b1 b2 w1x r2x1 c2 a1",
        "clean=aborted at 3; snapshot=read at 3 wants 0; conflict=order 2",
    ),
    (
        "b2 b1 w1x w2x c2 b3 r3x1 c3 c1",
        "clean=yes; snapshot=read at 6 wants 2 from 4",
    ),
    (
        "b1 b2 w1x w2x c1 c2 b3 w3y b4 r4y3 a3 c4",
        "clean=aborted at 9; snapshot=write at 5 with 1",
    ),
    (
        "b1 b2 w1x w2x b3 r3x2 c1 c2 c3",
        "snapshot=read at 5 wants 0",
    ),
    (
        "b5 b3 b1 w5x w3y w1x w1y c5 c3 c1",
        "snapshot=write at 9 with 3",
    ),
    (
        "b9 b2 b1 w9x w2y w1x c2 c9 c1",
        "snapshot=write at 8 with 9",
    ),
    ("b1 w1x c1 b2 w2x c2", "snapshot=yes"),
    (
        "b1 b2 w1x w2x w1x c1 c2",
        "conflict=cycle 1 ww:0 2 ww:0; version=order 1 2; exact=order 1 2",
    ),
    ("b2 c2 b1 c1", "conflict=order 1 2; exact=order 1 2"),
    ("b1 r1x0 w1x c1", "version=order 1"),
    (
        "b1 b2 r1x0 w1y w2x w2y c2 c1",
        "version=cycle 1 rw:0 2 ww:1; exact=order 1 2",
    ),
];

#[test]
fn verdicts() {
    for (short, lines) in REPORTS {
        reports(short, lines);
    }
    let aborted_between = "b1 b2 r2x0 b3 w3x a3 r1y0 w1x w2y c1 c2";
    reports(aborted_between, "version=cycle 1 rw:1 2 rw:0");
    let version_between = "b1 w1x c1 b2 w2x c2 b3 r3x1 w3x c3";
    reports(
        version_between,
        "version=cycle 2 ww:0 3 rw:0; exact=order 1 3 2",
    );
}

/// The step is that of the commit, and no later commit than the reader's begin
/// counts, nor a writer that aborts.
const WANTS: [(&str, &str); 5] = [
    ("b1 w1x c1 b2 w2x c2 b3 r3x1 c3", "read at 7 wants 2 from 5"),
    ("b1 w1x b2 r2x1 c1 c2", "read at 3 wants 0"),
    ("b1 w1x c1 b2 b3 w3x c3 r2x3 c2", "read at 7 wants 1 from 2"),
    ("b1 w1x c1 b2 w2x a2 b3 r3x2 c3", "read at 7 wants 1 from 2"),
    ("b1 w1y c1 b2 w2x b3 r3x2 c2 c3", "read at 6 wants 0"),
];

#[test]
fn wants() {
    for (short, value) in WANTS {
        reports(short, &format!("snapshot={value}"));
    }
}

/// A committed reader's read after its own write, with another source: own
/// comes before aborted and before unfinal, the lowest step decides, and the
/// snapshot wants the reader, even where the source is what the snapshot holds.
const OWN: [(&str, &str); 11] = [
    (
        "b1 w1x r1x0 a1",
        "clean=yes; snapshot=yes; version=order; exact=order",
    ),
    (
        "b1 w1x r1x0 c1",
        "clean=own at 2; snapshot=read at 2 wants 1; conflict=order 1; version=unclean at 2; exact=unclean at 2",
    ),
    (
        "b2 w2x c2 b1 r1x0 w1x r1x0 c1",
        "clean=own at 6; snapshot=read at 4 wants 2 from 2",
    ),
    (
        "b2 w2x b1 w1x r1x2 c1 a2",
        "clean=own at 4; snapshot=read at 4 wants 1",
    ),
    (
        "b2 w2x b1 w1x r1x2 w2x c1 c2",
        "clean=own at 4; snapshot=read at 4 wants 1",
    ),
    (
        "b2 w2x c2 b1 w1x r1x2 c1",
        "clean=own at 5; snapshot=read at 5 wants 1",
    ),
    (
        "b2 w2y b1 r1y2 w1x r1x0 c1 a2",
        "clean=aborted at 3; snapshot=read at 3 wants 0; version=unclean at 3",
    ),
    (
        "b2 w2y b1 w1x r1x0 r1y2 c1 a2",
        "clean=own at 4; version=unclean at 4",
    ),
    ("b1 w1x r1x1 r1x0 w1x c1", "clean=own at 3"),
    ("b1 r1x0 w1x r1y0 c1", "clean=yes; snapshot=yes"),
    (
        "b1 b2 w1x w2x c1 r2x0 c2",
        "clean=own at 5; snapshot=read at 5 wants 2",
    ),
];

#[test]
fn own() {
    for (short, lines) in OWN {
        reports(short, lines);
    }
    reports(
        "b1 b2 w1x w2x c1 c2 b3 w3y r3y0 c3",
        "clean=own at 8; snapshot=write at 5 with 1; conflict=order 1 2 3",
    );
    assert!(list(&log("b1 w1x r1x0 c1")).is_empty());
    assert!(loose_list(&log("b1 w1x r1x0 c1")).is_empty());
}

#[test]
fn unclean_and_over() {
    let others: String = (1..=8).map(|tx| format!("b{tx} c{tx} ")).collect();
    let short = format!("b10 w10x {others} b9 r9x10 c9 a10");
    reports(
        &short,
        "clean=aborted at 19; version=unclean at 19; exact=over",
    );
}

const NEXTS: [(&[u16], &str, &str); 15] = [
    (&[1, 3, 2], "b1 w1x c1 b2 w2x c2 b3 r3x1 c3", "none"),
    (&[2, 1, 3], "b1 w1x c1 b2 w2x c2 b3 r3x1 c3", "14 at 0"),
    (&[1, 2], "b1 c1 b2 c2", "order 2 1"),
    (&[1, 0, 2], "b1 c1 b2 c2", "14 at 0"),
    (&[1, 2, 2], "b1 c1 b2 c2", "14 at 0"),
    (&[1], "b1 c1 b2 c2", "14 at 0"),
    (&[1, 2, 500], "b1 c1 b2 c2", "14 at 0"),
    (&[], "b1 w1x a1", "none"),
    (&[], "b1 c1", "14 at 0"),
    (&[], "b1 w1x b2 r2x1 c2 a1", "14 at 0"),
    (&[1], "b1 w1x r1x0 c1", "14 at 0"),
    (&[], "b1 w1x r1x0 c1", "14 at 0"),
    (&[], "b1 w1x r1x0 a1", "none"),
    (&[9], "b1", "11 at 1"),
    (&[], "b1 r1x2 a1", "9 at 1"),
];

#[test]
fn nexts() {
    for (numbers, short, answer) in NEXTS {
        assert_eq!(next(numbers, &run(short)), answer, "{numbers:?} {short}");
    }
}
