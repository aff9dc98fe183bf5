//! The made texts reach what they are meant to reach, and reports are fast.

use std::time::{Duration, Instant};

use crate::histogram::histogram;
use crate::log::{Kind, Log};
use crate::make::{Sort, SORTS};
use crate::report::{log_of, orders, report};
use crate::verdicts::clean;

#[test]
fn every_outcome_is_reached() {
    let (lines, missed) = histogram(1, 400);
    assert!(missed.is_empty(), "{missed:?}\n{}", lines.join("\n"));
}

/// Of the small logs of each of ten seeds at least one in ten has a wrong read,
/// and both forms of what it wants occur.
#[test]
fn wrong_reads_are_common() {
    for seed in 1..=10 {
        let reports: Vec<String> = (1..=1500)
            .map(|index| report(&Sort::Small.text(seed, index)))
            .collect();
        let with = |form: &dyn Fn(&str) -> bool| {
            let wrong = |line: &str| line.starts_with("snapshot=read at ") && form(line);
            let has = |report: &&String| report.lines().any(wrong);
            reports.iter().filter(has).count()
        };
        let of_the_store = with(&|line| line.ends_with(" wants 0"));
        let of_another = with(&|line| line.contains(" from "));
        assert!(10 * (of_the_store + of_another) >= reports.len());
        assert!(20 <= of_the_store.min(of_another));
    }
}

/// Of the small logs of each of ten seeds at least one in ten has a read after
/// the reader's own write of the object, from another; some of them only in
/// transactions that abort, which is no fault.
#[test]
fn missed_own_writes_are_common() {
    for seed in 1..=10 {
        let texts = (1..=1500).map(|index| Sort::Small.text(seed, index));
        let logs = texts.map(|text| log_of(&text).expect("small logs pass the check"));
        let missing: Vec<Log> = logs.filter(misses).collect();
        let clean = missing.iter().filter(|log| clean(log).is_none()).count();
        assert!(10 * missing.len() >= 1500, "{}", missing.len());
        assert!(5 <= clean && 2 * clean <= missing.len(), "{clean}");
    }
}

fn misses(log: &Log) -> bool {
    let mut steps = log.steps.iter().enumerate();
    steps.any(|(k, s)| s.kind == Kind::Read && s.from != s.tx && log.wrote(s.tx, s.obj, k))
}

#[test]
fn the_same_seed_gives_the_same_texts() {
    for sort in SORTS {
        for index in 1..=40 {
            assert_eq!(sort.text(9, index), sort.text(9, index));
        }
        assert_ne!(sort.text(9, 3), sort.text(10, 3));
    }
}

#[test]
fn odd_bytes_occur() {
    let texts: Vec<Vec<u8>> = (1..=400).map(|index| Sort::Texts.text(1, index)).collect();
    for byte in [b'\r', 0, b'\t', 0xff] {
        assert!(texts.iter().any(|text| text.contains(&byte)), "byte {byte}");
    }
}

#[test]
fn small_logs_pass_the_check() {
    for index in 1..=500 {
        assert!(log_of(&Sort::Small.text(2, index)).is_ok());
    }
}

#[test]
fn reports_at_the_limits_are_fast() {
    for index in 1..=160 {
        let text = Sort::Limits.text(4, index);
        let start = Instant::now();
        let lines = report(&text);
        orders(&text, Some(5), &mut Vec::new()).expect("memory takes it");
        assert!(
            start.elapsed() < Duration::from_millis(500),
            "{index}:\n{lines}"
        );
    }
}
