//! Texts to be watched: the lines of a stream, lines between them that are not
//! in form, headers, and ends without an LF.

use super::draft::{line, Numbers};
use super::stream::stream;
use super::texts::{join, spoil, Line};
use crate::rng::Rng;

pub fn text(rng: &mut Rng, index: usize) -> Vec<u8> {
    let made = stream(rng, index);
    let odd = rng.pick(&[0, 0, 1, 4]);
    let mut lines = Vec::new();
    for (step, _) in &made {
        if rng.chance(odd, 24) {
            lines.push(odd_line(rng, step));
        }
        lines.push(line_of(rng, step));
    }
    if rng.chance(1, 2) {
        lines.insert(0, header(rng, made.len()));
    }
    let mut text = join(&lines);
    if rng.chance(1, 6) {
        text.pop();
    }
    text
}

/// A kind that is none gets a word that is none.
fn line_of(rng: &mut Rng, step: &Numbers) -> Line {
    if (1..=5).contains(&step[0]) {
        return line(step).into_bytes();
    }
    let word = rng.pick(&["", "end", "Begin", "0", "commits"]);
    let [_, tx, obj, from] = step;
    format!("op={word} tx={tx} obj={obj} from={from}").into_bytes()
}

/// Nearly never in form: a line with damage, a header in the middle, a line
/// that is long.
fn odd_line(rng: &mut Rng, step: &Numbers) -> Line {
    let mut odd = line_of(rng, step);
    match rng.below(8) {
        0 => b"steps=1".to_vec(),
        1 => vec![rng.pick(b"x0=\0 "); rng.pick(&[39, 40, 64, 4096, 5000])],
        2 => {
            odd.resize(rng.pick(&[100, 4096, 70_000]), rng.pick(b"0 x"));
            odd
        }
        _ => {
            spoil(rng, &mut odd);
            odd
        }
    }
}

/// Any header is passed over; what is none gets 16.
fn header(rng: &mut Rng, steps: usize) -> Line {
    let count = match rng.below(6) {
        0 => "0".to_string(),
        1 => "65535".to_string(),
        2 => rng.pick(&["", "01", "65536", "1 ", "1\r"]).to_string(),
        _ => steps.to_string(),
    };
    format!("steps={count}").into_bytes()
}
