//! The sample logs of the paper, and further samples with known answers.

use super::short::{checked, list, log, loose_list, next, reports, run};
use crate::replay::exact;
use crate::report::report;

const PRINTED: &str = "steps=8
op=begin tx=1 obj=0 from=0
op=begin tx=2 obj=0 from=0
op=read tx=1 obj=1 from=0
op=read tx=2 obj=0 from=0
op=write tx=1 obj=0 from=0
op=write tx=2 obj=1 from=0
op=commit tx=1 obj=0 from=0
op=commit tx=2 obj=0 from=0
";

const PRINTED_REPORT: &str = "steps=8
committed=2
clean=yes
snapshot=yes
conflict=cycle 1 rw:1 2 rw:0
version=cycle 1 rw:1 2 rw:0
exact=none
";

const EMPTY_REPORT: &str = "steps=0
committed=0
clean=yes
snapshot=yes
conflict=order
version=order
exact=order
";

#[test]
fn the_printed_log() {
    assert_eq!(report(PRINTED.as_bytes()), PRINTED_REPORT);
    let short = "b1 b2 r1y0 r2x0 w1x w2y c1 c2";
    assert_eq!(super::short::text(short), PRINTED.as_bytes());
    assert!(list(&log(short)).is_empty());
}

#[test]
fn the_empty_log() {
    assert_eq!(report(b"steps=0\n"), EMPTY_REPORT);
    assert_eq!(list(&log("")), vec![Vec::<usize>::new()]);
    assert_eq!(next(&[], &[]), "none");
}

#[test]
fn example_2_12() {
    let short = "b1 w1x c1 b2 w2x c2 b3 r3x1 c3";
    reports(
        short,
        "clean=yes; snapshot=read at 7 wants 2 from 5; conflict=order 1 2 3",
    );
    reports(short, "version=order 1 3 2; exact=order 1 3 2");
    assert_eq!(loose_list(&log(short)), [[1, 3, 2], [2, 1, 3]]);
    assert_eq!(list(&log(short)), [[1, 3, 2]]);
}

#[test]
fn example_2_13() {
    let short = "b1 w1x w1y c1 b2 w2x w2y c2 b3 r3x2 r3y1 c3";
    reports(
        short,
        "snapshot=read at 10 wants 2 from 7; conflict=order 1 2 3",
    );
    reports(short, "version=cycle 2 wr:0 3 rw:1; exact=none");
    assert!(loose_list(&log(short)).is_empty());
}

#[test]
fn lost_update() {
    let short = "b1 b2 r1x0 r2x0 w1x w2x c1 c2";
    reports(short, "snapshot=write at 7 with 1");
    reports(
        short,
        "conflict=cycle 1 ww:0 2 rw:0; version=cycle 1 ww:0 2 rw:0",
    );
}

#[test]
fn unclean_reads() {
    let aborted = "b1 w1x b2 r2x1 c2 a1";
    reports(
        aborted,
        "clean=aborted at 3; conflict=order 2; version=unclean at 3",
    );
    reports(aborted, "committed=1; exact=unclean at 3");
    reports(
        "b1 w1x b2 r2x1 w1x c1 c2",
        "clean=unfinal at 3; version=unclean at 3",
    );
    assert!(list(&log(aborted)).is_empty());
}

#[test]
fn lists() {
    let three = "b1 w1x c1 b2 r2x1 c2 b3 w3y c3";
    assert_eq!(list(&log(three)), [[1, 2, 3], [1, 3, 2], [3, 1, 2]]);
    let blind = "b1 w1x c1 b2 w2y c2 b3 w3z c3";
    assert_eq!(list(&log(blind)).len(), 6);
    assert_eq!(next(&[1, 2, 3], &run(three)), "order 1 3 2");
    assert_eq!(next(&[3, 1, 2], &run(three)), "none");
}

#[test]
fn own_write_not_read() {
    let short = "b1 w1x r1x0 c1";
    reports(
        short,
        "clean=own at 2; snapshot=read at 2 wants 1; conflict=order 1",
    );
    reports(short, "version=unclean at 2; exact=unclean at 2");
    assert!(list(&log(short)).is_empty());
}

#[test]
fn refused_samples() {
    assert_eq!(checked(&run("b1 r1x1 c1")), "9 at 1");
    assert_eq!(checked(&run("b1")), "11 at 1");
}

/// One transaction with so many steps.
fn long(steps: usize) -> Vec<u16> {
    let mut run = vec![1, 1, 0, 0];
    for _ in 2..steps {
        run.extend([3, 1, 63, 0]);
    }
    run.extend([4, 1, 0, 0]);
    run
}

#[test]
fn limits() {
    assert_eq!(checked(&long(1024)), "ok");
    assert_eq!(checked(&long(1025)), "2 at 0");
    assert_eq!(checked(&run("b128 c128")), "ok");
    assert_eq!(checked(&run("b129 c129")), "4 at 0");
    assert_eq!(checked(&run("b1 w1{63} c1")), "ok");
    assert_eq!(checked(&run("b1 w1{64} c1")), "5 at 1");
}

#[test]
fn nine_committed() {
    let nine: String = (1..=9).map(|tx| format!("b{tx} c{tx} ")).collect();
    let refusal = exact(&log(&nine)).expect_err("13");
    assert_eq!((refusal.number, refusal.place), (13, 9));
    reports(
        &nine,
        "committed=9; conflict=order 1 2 3 4 5 6 7 8 9; exact=over",
    );
    let eight: String = (1..=8).map(|tx| format!("b{tx} c{tx} ")).collect();
    reports(&eight, "committed=8; exact=order 1 2 3 4 5 6 7 8");
}

#[test]
fn read_only_anomaly() {
    let short = "b2 r2y0 b3 w3y c3 b1 r1y3 r1x0 w2x c2 c1";
    reports(short, "clean=yes; snapshot=yes; exact=none");
    reports(
        short,
        "conflict=cycle 1 rw:0 2 rw:1 3 wr:1; version=cycle 1 rw:0 2 rw:1 3 wr:1",
    );
}

#[test]
fn cycle_yet_loose_orders() {
    let second = "b2 r2y0 b3 w3y w3z c3 b1 r1x0 w1z c1 w2x c2";
    reports(
        second,
        "snapshot=yes; version=cycle 1 rw:0 2 rw:1 3 ww:2; exact=order 1 2 3",
    );
    let third = "b4 r4y0 b1 w1y w1x c1 b2 r2z0 w2x c2 b3 r3x2 c3 w4z c4";
    reports(
        third,
        "snapshot=yes; version=cycle 1 ww:0 2 rw:2 4 rw:1; exact=order 2 3 4 1",
    );
    assert_eq!(loose_list(&log(third)).len(), 2);
}

#[test]
fn two_overlapping_writers() {
    let short = "b1 b2 w1x w2x c1 c2";
    reports(
        short,
        "snapshot=write at 5 with 1; conflict=order 1 2; version=order 1 2",
    );
    assert_eq!(loose_list(&log(short)), [[1, 2], [2, 1]]);
}

#[test]
fn commit_order_is_not_write_order() {
    let short = "b1 b2 w2x r1x2 w1x c1 c2";
    reports(short, "snapshot=read at 3 wants 0; conflict=order 2 1");
    reports(short, "version=cycle 1 ww:0 2 wr:0; exact=order 2 1");
}

#[test]
fn two_sources_for_one_object() {
    reports(
        "b1 w1x c1 b2 r2x0 r2x1 c2",
        "version=cycle 1 wr:0 2 rw:0; exact=none",
    );
}
