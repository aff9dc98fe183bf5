//! Counts how often the made texts reach each outcome, and which outcomes
//! they miss.

mod live;
mod plans;

use std::collections::BTreeMap;

use crate::make::{stream_of, Sort, SORTS};
use crate::reasons::{Dependency, KINDS};
use crate::report::report;
use crate::watch::watch;
use crate::write::LONGEST;

/// The lines of the histogram, and the outcomes that were never reached.
pub fn histogram(seed: u64, count: usize) -> (Vec<String>, Vec<String>) {
    let mut table = Table::default();
    for sort in SORTS {
        table.add_texts(sort, seed, count);
    }
    table.add_streams(seed, count);
    table.add_plans(seed, count);
    (table.lines, table.missed)
}

#[derive(Default)]
pub struct Table {
    pub lines: Vec<String>,
    pub missed: Vec<String>,
}

impl Table {
    pub fn add_texts(&mut self, sort: Sort, seed: u64, count: usize) {
        let met = (1..=count).flat_map(|index| outcomes(sort, &sort.text(seed, index)));
        self.add(sort.name(), met, wanted(sort));
    }

    pub fn add_streams(&mut self, seed: u64, count: usize) {
        let met = (1..=count).flat_map(|index| live::of_stream(&stream_of(seed, index)));
        self.add("streams", met, live::STREAMS.to_vec());
    }

    /// The planner and the judge, over logs that pass the check and some that
    /// do not.
    pub fn add_plans(&mut self, seed: u64, count: usize) {
        let sorts = [Sort::Small, Sort::Tangled, Sort::Damaged];
        let texts = (1..=count).flat_map(|index| sorts.map(|sort| (index, sort)));
        let met =
            texts.flat_map(|(index, sort)| plans::of_text(seed, index, &sort.text(seed, index)));
        self.add("plans", met, plans::PLANS.to_vec());
    }

    /// How often the texts of this name have met each outcome, and which of
    /// those wanted they have not.
    fn add(&mut self, name: &str, all: impl Iterator<Item = String>, wanted: Vec<&str>) {
        let mut met: BTreeMap<String, usize> = BTreeMap::new();
        for outcome in all {
            *met.entry(outcome).or_default() += 1;
        }
        let absent = wanted.into_iter().filter(|&one| !met.contains_key(one));
        self.missed
            .extend(absent.map(|one| format!("{name} {one}")));
        let lines = met
            .iter()
            .map(|(one, times)| format!("{name} {one} {times}"));
        self.lines.extend(lines);
    }
}

/// The outcomes of one text.
fn outcomes(sort: Sort, text: &[u8]) -> Vec<String> {
    if sort == Sort::Live {
        return live::of_text(text, &watch(text));
    }
    let report = &report(text);
    let first = report.split(' ').next().unwrap_or("");
    if first == "refused=16" {
        return vec![format!("refused=16 {}", sort_of_place(text, report))];
    }
    if first.starts_with("refused=") {
        return vec![first.to_string()];
    }
    match sort {
        Sort::Small | Sort::Tangled => verdicts(report),
        Sort::Limits => [verdicts(report), extremes(text, report)].concat(),
        _ => vec!["accepted".to_string()],
    }
}

/// The first word of each verdict line, and some that come together. A wrong
/// read wants the store's version, one that a transaction committed, or the
/// reader's own.
fn verdicts(report: &str) -> Vec<String> {
    let words = report
        .lines()
        .skip(2)
        .map(|line| match line.split_once(' ') {
            Some(("snapshot=read", rest)) if rest.ends_with(" wants 0") => "snapshot=read wants 0",
            Some(("snapshot=read", rest)) if rest.contains(" from ") => "snapshot=read wants T",
            Some(("snapshot=read", _)) => "snapshot=read wants its own",
            Some((word, _)) => word,
            None => line,
        });
    let mut met: Vec<String> = words.map(|word| word.to_string()).collect();
    for pair in PAIRS {
        let (one, other) = pair.split_once(" and ").expect("two outcomes");
        if met.iter().any(|m| m == one) && met.iter().any(|m| m == other) {
            met.push(pair.to_string());
        }
    }
    [met, reasons(report)].concat()
}

/// For each verdict with a cycle the kinds among its reasons.
fn reasons(report: &str) -> Vec<String> {
    let mut met = Vec::new();
    for (verdict, links) in report.lines().filter_map(cycle_of) {
        for kind in KINDS.map(Dependency::word) {
            if links.contains(&format!(" {kind}:")) {
                met.push(format!("{verdict}=cycle by {kind}"));
            }
        }
    }
    met
}

/// The verdict of a line with a cycle, and its members with their reasons.
fn cycle_of(line: &str) -> Option<(&str, &str)> {
    line.split_once("=cycle ")
}

/// Outcomes that come together; small logs are meant to reach the first eight.
const PAIRS: [&str; 12] = [
    "snapshot=yes and version=cycle",
    "version=cycle and exact=order",
    "conflict=order and version=cycle",
    "conflict=cycle and version=order",
    "clean=own and snapshot=read wants 0",
    "clean=own and snapshot=read wants T",
    "clean=own and snapshot=read wants its own",
    "clean=own and snapshot=write",
    "version=unclean and exact=over",
    "version=cycle and exact=over",
    "clean=aborted and snapshot=write",
    "clean=unfinal and snapshot=write",
];

/// The members 1 to 128, a reason for each with an object of two digits, and a
/// blank between any two of them.
const WIDEST: usize = 9 + 2 * 90 + 3 * 29 + 128 * "ww:63".len() + 255;

/// The limits that a text and its report show.
fn extremes(text: &[u8], report: &str) -> Vec<String> {
    let mut met = Vec::new();
    if text.len() == LONGEST {
        met.push("longest text".to_string());
    }
    for line in report.lines() {
        if line == "steps=1024" || line == "committed=128" || line == "committed=8" {
            met.push(line.to_string());
        }
        if let Some((verdict, links)) = cycle_of(line) {
            let size = size_words(links.split(' ').count() / 2);
            met.push(format!("{verdict}=cycle of {size}"));
            if links.len() == WIDEST {
                met.push(format!("{verdict}=cycle at its widest"));
            }
        }
    }
    met
}

fn size_words(size: usize) -> &'static str {
    match size {
        2 => "2",
        3..=9 => "3 to 9",
        10..=63 => "10 to 63",
        64..=127 => "64 to 127",
        _ => "128",
    }
}

/// Where a 16 stands: header, first line, last line, one between, a line that
/// is missing, or behind the last line.
fn sort_of_place(text: &[u8], report: &str) -> &'static str {
    let place: usize = report
        .trim_end()
        .rsplit('=')
        .next()
        .unwrap_or("")
        .parse()
        .unwrap_or(0);
    let lines: Vec<&[u8]> = text.split(|&b| b == b'\n').collect();
    let count = String::from_utf8_lossy(lines[0]).replacen("steps=", "", 1);
    let count: usize = count.parse().unwrap_or(0);
    match place {
        0 => "header",
        _ if place == count + 1 => "behind",
        _ if place >= lines.len() || (place + 1 == lines.len() && lines[place].is_empty()) => {
            "missing"
        }
        _ if place == count => "last",
        1 => "first",
        _ => "inner",
    }
}

/// What the texts of a kind are meant to reach.
fn wanted(sort: Sort) -> Vec<&'static str> {
    match sort {
        Sort::Small => [&VERDICTS[..], &PAIRS[..8]].concat(),
        Sort::Damaged => DAMAGED.to_vec(),
        Sort::Texts => TEXTS.to_vec(),
        Sort::Limits => LIMITS.to_vec(),
        Sort::Live => live::TEXTS.to_vec(),
        Sort::Tangled => TANGLED.to_vec(),
    }
}

const VERDICTS: [&str; 24] = [
    "clean=yes",
    "clean=own",
    "clean=aborted",
    "clean=unfinal",
    "snapshot=yes",
    "snapshot=read wants 0",
    "snapshot=read wants T",
    "snapshot=read wants its own",
    "snapshot=write",
    "conflict=order",
    "conflict=cycle",
    "conflict=cycle by ww",
    "conflict=cycle by wr",
    "conflict=cycle by rw",
    "version=order",
    "version=cycle",
    "version=cycle by ww",
    "version=cycle by wr",
    "version=cycle by rw",
    "version=unclean",
    "exact=order",
    "exact=none",
    "exact=unclean",
    "exact=over",
];

const DAMAGED: [&str; 7] = [
    "refused=4",
    "refused=5",
    "refused=6",
    "refused=7",
    "refused=8",
    "refused=9",
    "refused=11",
];

const TEXTS: [&str; 9] = [
    "accepted",
    "refused=2",
    "refused=15",
    "refused=16 header",
    "refused=16 first",
    "refused=16 inner",
    "refused=16 last",
    "refused=16 missing",
    "refused=16 behind",
];

const LIMITS: [&str; 31] = [
    "longest text",
    "steps=1024",
    "committed=128",
    "committed=8",
    "clean=yes",
    "clean=own",
    "snapshot=yes",
    "snapshot=read wants 0",
    "snapshot=read wants T",
    "snapshot=read wants its own",
    "snapshot=write",
    "conflict=order",
    "conflict=cycle of 2",
    "conflict=cycle of 3 to 9",
    "conflict=cycle of 10 to 63",
    "conflict=cycle of 64 to 127",
    "conflict=cycle of 128",
    "version=order",
    "version=unclean",
    "version=cycle of 2",
    "version=cycle of 3 to 9",
    "version=cycle of 10 to 63",
    "version=cycle of 64 to 127",
    "version=cycle of 128",
    "version=cycle at its widest",
    "exact=over",
    "version=unclean and exact=over",
    "version=cycle and exact=over",
    "refused=2",
    "refused=4",
    "refused=5",
];

const TANGLED: [&str; 7] = [
    "clean=yes",
    "clean=own",
    "clean=aborted",
    "clean=unfinal",
    "version=order",
    "version=cycle",
    "version=unclean",
];
