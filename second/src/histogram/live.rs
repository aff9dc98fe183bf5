//! The outcomes of watched texts and of streams.

use crate::forgetful::{good_steps, misses_cycle, EDGES_ALONE, OVERLAPS_ALONE};
use crate::live::{Said, ROOM};
use crate::log::{Kind, Step};
use crate::make::draft::{BEGIN, READ, WRITE};
use crate::make::Answered;
use crate::room::Room;
use crate::so_far::{begun, SoFar};

/// The different answers to the lines of a watched text, and what a text has
/// beside its steps.
pub fn of_text(text: &[u8], answers: &str) -> Vec<String> {
    let mut met = distinct(answers.lines().map(|line| line.to_string()));
    let lines = text.iter().filter(|&&byte| byte == b'\n').count();
    if answers.lines().count() < lines {
        met.push("a header".to_string());
    }
    if text.last().is_some_and(|&byte| byte != b'\n') {
        met.push("no last LF".to_string());
    }
    let stands = |line: &&str| *line == "breach" || *line == "cycle closed";
    let mut after = answers.lines().skip_while(|line| !stands(line));
    if after.any(|line| line == "refused=16") {
        met.push("refused=16 while something stands".to_string());
    }
    met
}

/// The different answers to the steps of a stream, how something came to stand,
/// and whether nothing did for long.
pub fn of_stream(stream: &[Answered]) -> Vec<String> {
    let mut met = distinct(stream.iter().map(|(_, said)| said.line()));
    let calm = stream.iter().take_while(|(_, said)| !said.stands()).count();
    if calm >= 200 {
        met.push("200 steps and nothing stands".to_string());
    }
    let is_high = |(step, said): &Answered| step[1] > 128 && *said == Said::Yes;
    if stream.iter().any(is_high) {
        met.push("yes to one above 128".to_string());
    }
    if let Some(([_, tx, ..], said)) = stream.get(calm) {
        for (kind, word) in [(READ, "reads"), (WRITE, "writes")] {
            let does =
                |(step, said): &Answered| step[0] == kind && step[1] == *tx && *said == Said::Taken;
            if !stream[..calm].iter().any(does) {
                met.push(format!("{}, by one that never {word}", said.line()));
            }
        }
    }
    [met, of_room(stream)].concat()
}

/// What room given back comes to.
fn of_room(stream: &[Answered]) -> Vec<String> {
    let good = good_steps(stream);
    let steps: Vec<Step> = good.iter().map(|(step, _)| *step).collect();
    let mut met = refused_18(stream);
    if begun(&steps).len() > ROOM {
        met.push("more than 128 begun".to_string());
        if let Some((_, said)) = good.last().filter(|(_, said)| said.stands()) {
            met.push(format!("{} after more than 128 begun", said.line()));
        }
    }
    for said in [Said::Yes, Said::Breach] {
        if reads_forgotten(&good, &steps, said) {
            met.push(format!("{} to a reader of one forgotten", said.line()));
        }
    }
    if misses_cycle(OVERLAPS_ALONE, stream) {
        met.push("cycle closed, and missed by overlaps alone".to_string());
    }
    if misses_cycle(EDGES_ALONE, stream) {
        met.push("cycle closed, and missed by edges alone".to_string());
    }
    met
}

/// How many were open when 18 came, and what was taken after it.
fn refused_18(stream: &[Answered]) -> Vec<String> {
    let mut met = Vec::new();
    let full = |(_, said): &Answered| *said == Said::Refused(18);
    for k in (0..stream.len()).filter(|&k| full(&stream[k])) {
        let steps: Vec<Step> = good_steps(&stream[..k]).iter().map(|good| good.0).collect();
        let open = SoFar::new(&steps).open.len();
        let begins = |(step, said): &&Answered| step[0] == BEGIN && *said == Said::Taken;
        let later: Vec<u16> = stream[k..].iter().filter(begins).map(|a| a.0[1]).collect();
        met.push(format!("refused=18 with {} open", open_words(open)));
        if !later.is_empty() {
            met.push("a begin after refused=18".to_string());
        }
        let mut after = stream[k..].iter().skip_while(|a| !begins(a));
        if after.any(full) {
            met.push("a begin after refused=18, and that again".to_string());
        }
        if later.contains(&stream[k].0[1]) {
            met.push("a begin of one that got 18".to_string());
        }
    }
    distinct(met.into_iter())
}

fn open_words(open: usize) -> &'static str {
    match open {
        0..=8 => "few",
        128 => "128",
        _ => "some",
    }
}

/// One that gets this to its commit has read from one that was forgotten then.
fn reads_forgotten(good: &[(Step, Said)], steps: &[Step], said: Said) -> bool {
    let gets = |tx: usize| {
        let mut commits = good.iter().filter(|(s, _)| s.kind == Kind::Commit);
        commits.any(|(s, is)| s.tx == tx && *is == said)
    };
    let mut reads = (0..steps.len()).filter(|&k| steps[k].kind == Kind::Read);
    reads.any(|k| gets(steps[k].tx) && is_forgotten(&steps[..k], steps[k].from))
}

fn is_forgotten(steps: &[Step], tx: usize) -> bool {
    let so_far = SoFar::new(steps);
    let committed = so_far
        .number(tx)
        .filter(|&one| so_far.log.is_committed(one));
    committed.is_some_and(|one| !Room::new(&so_far).kept().contains(&one))
}

fn distinct(lines: impl Iterator<Item = String>) -> Vec<String> {
    let mut all: Vec<String> = lines.collect();
    all.sort();
    all.dedup();
    all
}

/// A text has no word for a kind that is not 1..5.
pub const TEXTS: [&str; 14] = [
    "taken",
    "yes",
    "breach",
    "cycle closed",
    "refused=4",
    "refused=5",
    "refused=6",
    "refused=7",
    "refused=8",
    "refused=16",
    "refused=18",
    "a header",
    "no last LF",
    "refused=16 while something stands",
];

pub const STREAMS: [&str; 29] = [
    "taken",
    "yes",
    "breach",
    "cycle closed",
    "refused=3",
    "refused=4",
    "refused=5",
    "refused=6",
    "refused=7",
    "refused=8",
    "refused=18",
    "200 steps and nothing stands",
    "yes to one above 128",
    "breach, by one that never reads",
    "breach, by one that never writes",
    "cycle closed, by one that never writes",
    "more than 128 begun",
    "refused=18 with few open",
    "refused=18 with some open",
    "refused=18 with 128 open",
    "a begin after refused=18",
    "a begin after refused=18, and that again",
    "a begin of one that got 18",
    "yes to a reader of one forgotten",
    "breach to a reader of one forgotten",
    "breach after more than 128 begun",
    "cycle closed after more than 128 begun",
    "cycle closed, and missed by overlaps alone",
    "cycle closed, and missed by edges alone",
];
