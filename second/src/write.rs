//! The writer: the one text that the reader takes back to a log's steps, of
//! the whole log or of some transactions alone.

use crate::log::{check, Refusal, TRANSACTIONS};
use crate::report::refused;
use crate::text::{number, read_run, WORDS};

/// No text of a well-formed log is longer. So long is that of one transaction
/// 100..128 that begins, writes an object 10..63, reads its own write 1,021
/// times and commits.
pub const LONGEST: usize = 31_751;

/// The text of a text's log, made from its numbers; a refusal is the only
/// line.
pub fn write(text: &[u8]) -> String {
    read_run(text).and_then(written).unwrap_or_else(refused)
}

/// The same with only the steps of these transactions. What is left out need
/// not be well-formed, and places count what is kept.
pub fn keep(kept: &[u16], text: &[u8]) -> String {
    let run = read_run(text).map(|run| steps_of(kept, &run));
    run.and_then(written).unwrap_or_else(refused)
}

/// The transactions that a list names: numbers with commas between.
pub fn transactions(list: &str) -> Option<Vec<u16>> {
    let numbers = list.split(',').map(|digits| number(digits.as_bytes()));
    let within = |&tx: &u16| (1..=TRANSACTIONS).contains(&(tx as usize));
    numbers.map(|tx| tx.filter(within)).collect()
}

/// The text of a well-formed run.
pub fn text_of(run: &[u16]) -> String {
    let mut text = format!("steps={}\n", run.len() / 4);
    for step in run.chunks(4) {
        let word = WORDS[step[0] as usize - 1];
        text += &format!(
            "op={word} tx={} obj={} from={}\n",
            step[1], step[2], step[3]
        );
    }
    text
}

/// The text of a run, or the number that turns it away.
fn written(run: Vec<u16>) -> Result<String, Refusal> {
    check(&run).map(|_| text_of(&run))
}

fn steps_of(kept: &[u16], run: &[u16]) -> Vec<u16> {
    let steps = run.chunks(4).filter(|step| kept.contains(&step[1]));
    steps.flatten().copied().collect()
}
