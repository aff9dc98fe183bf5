//! Watching a text: each line of it is a step of a stream, and gets one line.

use crate::live::{Live, Said, ROOM};
use crate::text::{header_number, step_numbers};

/// The answers to the lines. A header as the first line is passed over; any
/// other line that is not in form gets 16 and is no step.
pub fn watch(text: &[u8]) -> String {
    let mut judge = Live::new(ROOM);
    let mut answers = String::new();
    for (place, line) in text.split_inclusive(|&byte| byte == b'\n').enumerate() {
        let whole = line.strip_suffix(b"\n");
        if place == 0 && whole.and_then(header_number).is_some() {
            continue;
        }
        let said = match whole.and_then(step_numbers) {
            Some(numbers) => judge.take(&numbers),
            None => Said::Refused(16),
        };
        answers += &(said.line() + "\n");
    }
    answers
}
