//! The planner: the settled samples, what it brings for made logs, easy errors,
//! and the log with commits taken back.

use super::short::{log, text};
use crate::accepts::will_do;
use crate::astray::{given_back_once, will_do_by_old_versions};
use crate::histogram::Table;
use crate::log::Log;
use crate::make::Sort;
use crate::plans;
use crate::redo::{is_fine, planned, redo, taken_back};
use crate::report::{log_of, report};

const LINES: [(&str, &str); 16] = [
    ("", "redo"),
    ("b1 w1x a1", "redo"),
    ("b1 c1", "redo"),
    ("b1 b2 w2x r1x2 c1 c2", "redo"),
    ("b1 b2 w1x w2y r1y2 r2x1 c1 c2", "redo 1 2"),
    ("b1 b2 r1y0 r2x0 w1x w2y c1 c2", "redo 2"),
    ("b1 b2 r1x0 r2x0 w1x w2x c1 c2", "redo 2"),
    ("b1 w1x b2 r2x1 c2 a1", "redo 2"),
    ("b1 w1x b2 r2x1 w1x c1 c2", "redo 2"),
    ("b1 w1x r1x0 c1", "redo 1"),
    ("b1 w1x r1x0 c1 b2 r2x1 c2 b3 r3x0 c3", "redo 1 2"),
    ("b10 b9 r9x0 r10x0 w9x w10x c10 c9", "redo 10"),
    // the lowest stays, though it alone could go
    ("b1 b2 b3 r1y0 r2x0 r1z0 r3x0 w1x w2y w3z c1 c2 c3", "redo 2 3"),
    // a cycle of three, and still one of two without 1
    ("b1 b2 b3 r3x0 w1x c1 w2x w2y c2 r3y2 c3", "redo 3"),
    // 3 is given back first, then 2, then 1
    ("b3 w3x c3 b2 r2x3 w2y c2 b1 r1y2 c1", "redo"),
    (
        "b1 r1x0 r1y0 b2 r2x0 r2y0 w1x c1 b3 w3z b4 r4z3 w4{3} c4 w2y c2 a3 b5 r5{3}4 w5{4} c5 b6 r6x1 r6y2 w6{5} c6",
        "redo 2 4 5 6",
    ),
];

#[test]
fn lines() {
    for (short, line) in LINES {
        assert_eq!(redo(&text(short)), format!("{line}\n"), "{short}");
    }
}

#[test]
fn refusals() {
    assert_eq!(redo(b""), "refused=16 at=0\n");
    assert_eq!(redo(b"steps=1025\n"), "refused=2 at=0\n");
    assert_eq!(redo(&[b'x'; 33_804]), "refused=15 at=0\n");
    assert_eq!(redo(&text("b1 r1x1 c1")), "refused=9 at=1\n");
    assert_eq!(redo(&text("b7 b3")), "refused=11 at=3\n");
}

fn made(sort: Sort, seed: u64, count: usize) -> Vec<Log> {
    let texts = (1..=count).map(|index| sort.text(seed, index));
    texts.filter_map(|text| log_of(&text).ok()).collect()
}

/// What is brought rises, is accepted, and is empty for a fine log alone.
#[test]
fn the_judge_takes_it() {
    for (sort, count) in [
        (Sort::Small, 1500),
        (Sort::Tangled, 300),
        (Sort::Limits, 60),
    ] {
        for log in made(sort, 31, count) {
            let members = planned(&log);
            assert!(members.windows(2).all(|pair| pair[0] < pair[1]));
            assert!(will_do(&log, &members));
            assert_eq!(members.is_empty(), is_fine(&log));
        }
    }
}

/// Each made log has a plan for the same as its report: a clean one with a
/// version order has nothing to redo.
#[test]
fn the_report_says_whether() {
    for index in 1..=500 {
        let text = Sort::Small.text(32, index);
        let report = report(&text);
        let fine = report.contains("\nclean=yes\n") && report.contains("\nversion=order");
        assert_eq!(redo(&text) == "redo\n", fine, "{report}");
    }
}

/// The text with the commits of these turned into aborts, line by line.
fn text_taken_back(text: &[u8], members: &[usize]) -> String {
    let mut text = String::from_utf8(text.to_vec()).expect("texts are ASCII");
    for tx in members {
        text = text.replace(
            &format!("op=commit tx={tx} "),
            &format!("op=abort tx={tx} "),
        );
    }
    text
}

/// The log with commits taken back is that of the changed text, and well-formed;
/// the report of what is left is fine.
#[test]
fn texts_taken_back() {
    let mut several = 0;
    for sort in [Sort::Small, Sort::Tangled] {
        for text in (1..=300).map(|index| sort.text(33, index)) {
            let log = log_of(&text).expect("these pass the check");
            let members = planned(&log);
            let changed = text_taken_back(&text, &members);
            let left = log_of(changed.as_bytes()).expect("still well-formed");
            assert_eq!(left.steps, taken_back(&log, &members).steps);
            assert_eq!(
                left.committed().len(),
                log.committed().len() - members.len()
            );
            let report = report(changed.as_bytes());
            assert!(report.contains("\nclean=yes\n") && report.contains("\nversion=order"));
            several += usize::from(members.len() > 1);
        }
    }
    assert!(several > 100, "{several}");
}

/// Each reads from the one with the next higher number: 128 rounds.
#[test]
fn the_most_rounds() {
    let mut short = "b128 w128x c128".to_string();
    for tx in (1..=127).rev() {
        let obj = |tx: u16| (128 - tx) % 64;
        short += &format!(
            " b{tx} r{tx}{{{}}}{} w{tx}{{{}}} c{tx}",
            obj(tx + 1),
            tx + 1,
            obj(tx)
        );
    }
    let log = log(&short);
    assert_eq!(planned(&log), []);
    assert_eq!(given_back_once(&log), (1..=127).collect::<Vec<_>>());
}

/// Both easy errors are made visible by samples of a few steps.
#[test]
fn easy_errors() {
    let reader_first = log("b1 b2 w2x r1x2 c1 c2");
    assert_eq!(given_back_once(&reader_first), [1]);
    assert!(!will_do(&reader_first, &[1]));
    let version_between = log("b1 b2 b3 r3x0 w1x c1 w2x w2y c2 r3y2 c3");
    assert!(will_do_by_old_versions(&version_between, &[1]));
    assert!(!will_do(&version_between, &[1]));
}

/// The lines for a test: what the planner brings, and then proposals, some of
/// each answer.
#[test]
fn plan_lines() {
    let lines = plans::lines(1, 1, &text("b1 b2 r1y0 r2x0 w1x w2y c1 c2"));
    assert!(lines.starts_with("redo 2\naccepts: no\n"), "{lines}");
    for line in [
        "accepts 2: yes",
        "accepts 1: yes",
        "accepts 1 2: no",
        "accepts 0 1: refused=19 at=0",
    ] {
        assert!(lines.lines().any(|l| l == line), "no {line} in\n{lines}");
    }
    let refused = plans::lines(1, 1, &text("b1 c1 b2"));
    assert!(refused.starts_with("refused=11 at=2\naccepts: refused=11 at=2\n"));
    assert!(refused
        .lines()
        .skip(1)
        .all(|line| line.ends_with(": refused=11 at=2")));
    assert_eq!(plans::lines(1, 1, b"steps=0"), "refused=16 at=0\n");
}

/// Of further seeds, as the gate takes any.
#[test]
fn every_outcome_of_plans_is_reached() {
    for seed in [2, 3] {
        let mut table = Table::default();
        table.add_texts(Sort::Tangled, seed, 200);
        table.add_plans(seed, 200);
        assert!(table.missed.is_empty(), "{:?}", table.missed);
    }
}
