//! The commands: report, orders, write, keep, watch, redo, accepts, plans,
//! graphs, make, every, streams, histogram.

mod accepts;
mod astray;
mod every;
mod forgetful;
mod graph;
mod graphs;
mod histogram;
mod live;
mod log;
mod make;
mod permutations;
mod plans;
mod proposals;
mod reasons;
mod redo;
mod replay;
mod report;
mod rng;
mod room;
mod so_far;
mod streams;
#[cfg(test)]
mod tests;
mod text;
mod verdicts;
mod watch;
mod write;

use std::ffi::OsString;
use std::io::{self, BufWriter, ErrorKind, Read, Write};
use std::path::Path;
use std::process::ExitCode;

const USAGE: &str = "second report [FILE ..]
second orders [--most N] [FILE ..]
second write [FILE ..]
second keep T,T,.. [FILE ..]
second watch [FILE ..]
second redo [FILE ..]
second accepts T,T,..|- [FILE ..]
second plans SEED [FILE ..]
second graphs
second make small|damaged|texts|limits|live|tangled SEED COUNT DIR
second every [--count] STEPS TRANSACTIONS OBJECTS
second streams SEED COUNT
second histogram SEED COUNT";

fn main() -> ExitCode {
    let args: Vec<OsString> = std::env::args_os().skip(1).collect();
    let out = &mut BufWriter::new(io::stdout().lock());
    let done = run(&args, out).and_then(|good| out.flush().map(|_| good));
    match done {
        Ok(true) => ExitCode::SUCCESS,
        Ok(false) => ExitCode::FAILURE,
        Err(error) if error.kind() == ErrorKind::BrokenPipe => ExitCode::SUCCESS,
        Err(error) => {
            eprintln!("second: {error}");
            ExitCode::FAILURE
        }
    }
}

/// Runs a command; false if something asked for was not to be had.
fn run(args: &[OsString], out: &mut dyn Write) -> io::Result<bool> {
    let words: Vec<&str> = args.iter().map(|arg| arg.to_str().unwrap_or("")).collect();
    match words[..] {
        ["report", ..] => answer_each(&args[1..], out, &report::report),
        ["orders", "--most", most, ..] => match most.parse() {
            Ok(most) => orders(&args[3..], Some(most), out),
            Err(_) => usage(),
        },
        ["orders", ..] => orders(&args[1..], None, out),
        ["write", ..] => answer_each(&args[1..], out, &write::write),
        ["keep", list, ..] => keep(list, &args[2..], out),
        ["watch", ..] => answer_each(&args[1..], out, &watch::watch),
        ["redo", ..] => answer_each(&args[1..], out, &redo::redo),
        ["accepts", list, ..] => accepts(list, &args[2..], out),
        ["plans", seed, ..] => match seed.parse() {
            Ok(seed) => plans(seed, &args[2..], out),
            Err(_) => usage(),
        },
        ["graphs"] => out.write_all(graphs::lines().as_bytes()).map(|_| true),
        ["make", kind, seed, count, _] => match make::Sort::named(kind) {
            Some(sort) => seeded(seed, count, |seed, count| {
                write_texts(sort, seed, count, &args[4])
            }),
            None => usage(),
        },
        ["every", "--count", steps, transactions, objects] => {
            match bounds(steps, transactions, objects) {
                Some(bounds) => writeln!(out, "{}", every::count_all(&bounds)).map(|_| true),
                None => usage(),
            }
        }
        ["every", steps, transactions, objects] => match bounds(steps, transactions, objects) {
            Some(bounds) => every::write_all(&bounds, out).map(|_| true),
            None => usage(),
        },
        ["streams", seed, count] => seeded(seed, count, |seed, count| {
            streams::write_all(seed, count, out).map(|_| true)
        }),
        ["histogram", seed, count] => {
            seeded(seed, count, |seed, count| histogram(seed, count, out))
        }
        _ => usage(),
    }
}

/// Runs what takes a seed and a count.
fn seeded(
    seed: &str,
    count: &str,
    run: impl FnOnce(u64, usize) -> io::Result<bool>,
) -> io::Result<bool> {
    match (seed.parse(), count.parse()) {
        (Ok(seed), Ok(count)) => run(seed, count),
        _ => usage(),
    }
}

fn bounds(steps: &str, transactions: &str, objects: &str) -> Option<every::Bounds> {
    Some(every::Bounds {
        steps: steps.parse().ok()?,
        transactions: transactions.parse().ok()?,
        objects: objects.parse().ok()?,
    })
}

fn usage() -> io::Result<bool> {
    eprintln!("{USAGE}");
    Ok(false)
}

type Deal<'a> = dyn FnMut(&[u8], &mut dyn Write) -> io::Result<()> + 'a;

/// Deals with standard input, or with each file under its name.
fn each_text(files: &[OsString], out: &mut dyn Write, deal: &mut Deal) -> io::Result<bool> {
    if files.is_empty() {
        let mut text = Vec::new();
        io::stdin().read_to_end(&mut text)?;
        deal(&text, out)?;
        return Ok(true);
    }
    let mut all_read = true;
    for file in files {
        match std::fs::read(file) {
            Ok(text) => {
                out.write_all(b"file=")?;
                out.write_all(file.as_encoded_bytes())?;
                out.write_all(b"\n")?;
                deal(&text, out)?;
            }
            Err(error) => {
                eprintln!("second: {}: {error}", Path::new(file).display());
                all_read = false;
            }
        }
    }
    Ok(all_read)
}

fn answer_each(
    files: &[OsString],
    out: &mut dyn Write,
    answer: &dyn Fn(&[u8]) -> String,
) -> io::Result<bool> {
    each_text(files, out, &mut |text, out| {
        out.write_all(answer(text).as_bytes())
    })
}

fn keep(list: &str, files: &[OsString], out: &mut dyn Write) -> io::Result<bool> {
    match write::transactions(list) {
        Some(kept) => answer_each(files, out, &|text| write::keep(&kept, text)),
        None => {
            eprintln!("second: keep takes numbers 1 to 128 with commas between");
            Ok(false)
        }
    }
}

fn accepts(list: &str, files: &[OsString], out: &mut dyn Write) -> io::Result<bool> {
    match accepts::members(list) {
        Some(members) => answer_each(files, out, &|text| accepts::accepts(&members, text)),
        None => {
            eprintln!("second: accepts takes numbers 1 to 128 with commas between, or -");
            Ok(false)
        }
    }
}

fn plans(seed: u64, files: &[OsString], out: &mut dyn Write) -> io::Result<bool> {
    let mut index = 0;
    each_text(files, out, &mut |text, out| {
        index += 1;
        out.write_all(plans::lines(seed, index, text).as_bytes())
    })
}

fn orders(files: &[OsString], most: Option<usize>, out: &mut dyn Write) -> io::Result<bool> {
    each_text(files, out, &mut |text, out| report::orders(text, most, out))
}

fn write_texts(sort: make::Sort, seed: u64, count: usize, dir: &OsString) -> io::Result<bool> {
    std::fs::create_dir_all(dir)?;
    for index in 1..=count {
        let name = format!("{}-{index:04}.log", sort.name());
        std::fs::write(Path::new(dir).join(name), sort.text(seed, index))?;
    }
    Ok(true)
}

fn histogram(seed: u64, count: usize, out: &mut dyn Write) -> io::Result<bool> {
    let (lines, missed) = histogram::histogram(seed, count);
    for line in lines {
        writeln!(out, "{line}")?;
    }
    for outcome in &missed {
        eprintln!("never reached: {outcome}");
    }
    Ok(missed.is_empty())
}
