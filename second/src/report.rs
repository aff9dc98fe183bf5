//! The report of a text, and the list of its explaining orders.

use std::io::{self, Write};

use crate::log::{check, Log, Refusal};
use crate::reasons::Link;
use crate::replay::{exact, Replay};
use crate::text::read_run;
use crate::verdicts::{clean, conflict, snapshot, version, Answer, Fault, Snapshot, Wanted};

/// The log of a text, or the number that turns text or log away.
pub fn log_of(text: &[u8]) -> Result<Log, Refusal> {
    check(&read_run(text)?)
}

/// The whole report; a refusal is its only line.
pub fn report(text: &[u8]) -> String {
    match log_of(text) {
        Ok(log) => report_of(&log),
        Err(refusal) => refused(refusal),
    }
}

/// The line of a refusal.
pub fn refused(refusal: Refusal) -> String {
    format!("refused={} at={}\n", refusal.number, refusal.place)
}

fn report_of(log: &Log) -> String {
    let exact = match exact(log) {
        Ok(answer) => answer_words(&answer),
        Err(_) => "over".to_string(),
    };
    let lines = [
        format!("steps={}", log.steps.len()),
        format!("committed={}", log.committed().len()),
        format!("clean={}", clean_words(clean(log))),
        format!("snapshot={}", snapshot_words(snapshot(log))),
        format!("conflict={}", answer_words(&conflict(log))),
        format!("version={}", answer_words(&version(log))),
        format!("exact={exact}"),
    ];
    lines.map(|line| line + "\n").concat()
}

fn clean_words(fault: Option<Fault>) -> String {
    match fault {
        None => "yes".to_string(),
        Some(Fault::Own(step)) => format!("own at {step}"),
        Some(Fault::Aborted(step)) => format!("aborted at {step}"),
        Some(Fault::Unfinal(step)) => format!("unfinal at {step}"),
    }
}

fn snapshot_words(snapshot: Snapshot) -> String {
    match snapshot {
        Snapshot::Yes => "yes".to_string(),
        Snapshot::Read(step, wanted) => format!("read at {step} wants {}", wanted_words(wanted)),
        Snapshot::Write(step, partner) => format!("write at {step} with {partner}"),
    }
}

/// The writer wanted, and where it committed; no step for writer 0 and for the
/// reader itself.
fn wanted_words(wanted: Wanted) -> String {
    match wanted {
        Wanted::Committed(None) => "0".to_string(),
        Wanted::Committed(Some((writer, commit))) => format!("{writer} from {commit}"),
        Wanted::Reader(reader) => reader.to_string(),
    }
}

fn answer_words(answer: &Answer) -> String {
    match answer {
        Answer::Order(order) => words("order", order),
        Answer::Cycle(cycle) => cycle_words(cycle),
        Answer::None => "none".to_string(),
        Answer::Unclean(fault) => format!("unclean at {}", fault.step()),
    }
}

/// Each member, and its reason as `KIND:OBJECT`.
fn cycle_words(cycle: &[Link]) -> String {
    let mut line = "cycle".to_string();
    for (tx, reason) in cycle {
        line += &format!(" {tx} {}:{}", reason.kind.word(), reason.obj);
    }
    line
}

/// The word and then the numbers, one blank between.
pub fn words(word: &str, numbers: &[usize]) -> String {
    let mut line = word.to_string();
    for number in numbers {
        line.push(' ');
        line.push_str(&number.to_string());
    }
    line
}

/// Every explaining order, one a line, and last `none`; no more than `most`
/// orders, and without `none` once that many are written.
pub fn orders(text: &[u8], most: Option<usize>, out: &mut dyn Write) -> io::Result<()> {
    let log = match log_of(text) {
        Ok(log) => log,
        Err(refusal) => return out.write_all(refused(refusal).as_bytes()),
    };
    if most == Some(0) {
        return Ok(());
    }
    let mut written = 0;
    let mut result = Ok(());
    let finished = Replay::new(&log).list(&log, &mut |order| {
        result = writeln!(out, "{}", words("order", order));
        written += 1;
        result.is_ok() && most != Some(written)
    });
    result?;
    if finished {
        writeln!(out, "none")?;
    }
    Ok(())
}
