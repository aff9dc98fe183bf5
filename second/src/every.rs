//! Every well-formed log of up to so many steps, over few transactions and
//! objects: none is left out, and none comes twice.

use std::io::{self, Write};

use crate::log::check;
use crate::report::report;
use crate::write::text_of;

/// How large the logs may be.
pub struct Bounds {
    pub steps: usize,
    pub transactions: u16,
    pub objects: u16,
}

/// Writes each log's text and its report: a line with the two lengths, and
/// then the bytes of both. Answers how many logs there are.
pub fn write_all(bounds: &Bounds, out: &mut dyn Write) -> io::Result<u64> {
    let mut count = 0;
    each(bounds, &mut |run| {
        count += 1;
        let text = text_of(run);
        let report = report(text.as_bytes());
        write!(out, "{} {}\n{text}{report}", text.len(), report.len())
    })?;
    Ok(count)
}

/// How many there are.
pub fn count_all(bounds: &Bounds) -> u64 {
    let mut count = 0;
    each(bounds, &mut |_| {
        count += 1;
        Ok(())
    })
    .expect("nothing is written");
    count
}

type Deal<'a> = dyn FnMut(&[u16]) -> io::Result<()> + 'a;

/// Deals with the run of each log.
pub fn each(bounds: &Bounds, deal: &mut Deal) -> io::Result<()> {
    grow(bounds, &mut Vec::new(), deal)
}

/// Deals with the run where it is a log, and then with all that go on from it.
/// A run that is turned away at a step goes on to nothing.
fn grow(bounds: &Bounds, run: &mut Vec<u16>, deal: &mut Deal) -> io::Result<()> {
    match check(run) {
        Ok(_) => deal(run)?,
        Err(refusal) if refusal.number != 11 => return Ok(()),
        Err(_) => {}
    }
    if run.len() / 4 == bounds.steps {
        return Ok(());
    }
    for kind in 1..=5 {
        for tx in 1..=bounds.transactions {
            for obj in 0..bounds.objects {
                for from in 0..=bounds.transactions {
                    run.extend([kind, tx, obj, from]);
                    grow(bounds, run, deal)?;
                    run.truncate(run.len() - 4);
                }
            }
        }
    }
    Ok(())
}
