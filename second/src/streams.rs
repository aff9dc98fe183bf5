//! Streams of numbers with the answer to each step, for a test that calls the
//! live judge. Unlike a text, a stream may have kinds that are none.

use std::io::{self, Write};

use crate::make::stream_of;

/// For each stream a line `steps=N`, and then N lines with the four numbers of
/// a step and its answer.
pub fn write_all(seed: u64, count: usize, out: &mut dyn Write) -> io::Result<()> {
    for index in 1..=count {
        let stream = stream_of(seed, index);
        writeln!(out, "steps={}", stream.len())?;
        for ([kind, tx, obj, from], said) in stream {
            writeln!(out, "{kind} {tx} {obj} {from} {}", said.line())?;
        }
    }
    Ok(())
}
