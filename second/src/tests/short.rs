//! The short form of logs: b1 begin, w1x, r2x1 (2 reads x from 1), c1, a1;
//! x, y, z are objects 0, 1, 2, {32} is object 32, and b2:1 has source 1.

use crate::log::{check, Log, Refusal};
use crate::permutations;
use crate::replay::Replay;
use crate::report::report;
use crate::text::WORDS;

/// The run of numbers of a log in short form.
pub fn run(short: &str) -> Vec<u16> {
    short.split_whitespace().flat_map(step).collect()
}

fn step(word: &str) -> [u16; 4] {
    let kind = "brwca".find(&word[..1]).expect("a kind") as u16 + 1;
    let rest = &word[1..];
    let end = rest
        .find(|c: char| !c.is_ascii_digit())
        .unwrap_or(rest.len());
    let tx = rest[..end].parse().expect("a transaction");
    let (obj, from) = object_and_source(&rest[end..]);
    [kind, tx, obj, from]
}

fn object_and_source(rest: &str) -> (u16, u16) {
    let source = |s: &str| {
        if s.is_empty() {
            0
        } else {
            s.parse().expect("a source")
        }
    };
    if rest.is_empty() {
        return (0, 0);
    }
    if let Some(from) = rest.strip_prefix(':') {
        return (0, source(from));
    }
    if let Some(braced) = rest.strip_prefix('{') {
        let (obj, from) = braced.split_once('}').expect("a closing brace");
        return (obj.parse().expect("an object"), source(from));
    }
    let obj = "xyz".find(&rest[..1]).expect("an object") as u16;
    (obj, source(&rest[1..]))
}

/// The text of a log in short form.
pub fn text(short: &str) -> Vec<u8> {
    let run = run(short);
    let mut text = format!("steps={}\n", run.len() / 4);
    for s in run.chunks(4) {
        let word = WORDS[s[0] as usize - 1];
        text += &format!("op={word} tx={} obj={} from={}\n", s[1], s[2], s[3]);
    }
    text.into_bytes()
}

/// The log of a short form that passes the check.
pub fn log(short: &str) -> Log {
    check(&run(short)).expect("a log that passes")
}

/// The number and place that turn a log away, or `ok`.
pub fn checked(run: &[u16]) -> String {
    match check(run) {
        Ok(_) => "ok".to_string(),
        Err(Refusal { number, place }) => format!("{number} at {place}"),
    }
}

/// Every one of these lines is in the report of the log.
pub fn reports(short: &str, expected: &str) {
    let report = report(&text(short));
    for line in expected.split("; ") {
        assert!(
            report.lines().any(|l| l == line),
            "{short}: no {line} in\n{report}"
        );
    }
}

/// All explaining orders.
pub fn list(log: &Log) -> Vec<Vec<usize>> {
    let mut all = Vec::new();
    Replay::new(log).list(log, &mut |order| {
        all.push(order.to_vec());
        true
    });
    all
}

/// All orders that explain loosely.
pub fn loose_list(log: &Log) -> Vec<Vec<usize>> {
    let replay = Replay::new(log);
    let mut order = log.committed();
    let mut all = Vec::new();
    loop {
        if replay.explains_loosely(&order) {
            all.push(order.clone());
        }
        if !permutations::advance(&mut order) {
            return all;
        }
    }
}

/// What "next" answers after 128 numbers: the order behind them on the list.
pub fn next(numbers: &[u16], run: &[u16]) -> String {
    let log = match check(run) {
        Ok(log) => log,
        Err(Refusal { number, place }) => return format!("{number} at {place}"),
    };
    let filled = |order: &[usize]| -> Vec<usize> {
        let zeros = std::iter::repeat(0);
        order.iter().copied().chain(zeros).take(128).collect()
    };
    let asked = filled(&numbers.iter().map(|&n| n as usize).collect::<Vec<_>>());
    let all = list(&log);
    match all.iter().position(|order| filled(order) == asked) {
        None => "14 at 0".to_string(),
        Some(place) => match all.get(place + 1) {
            None => "none".to_string(),
            Some(order) => crate::report::words("order", order),
        },
    }
}
