//! The text reader: from bytes to steps, with the numbers 12, 15, 16 and 2.

use crate::log::{refuse, Refusal, STEPS};

/// A longer text gets 15.
pub const BYTES: usize = 33_803;
/// The reader's step buffer has exactly this many numbers.
pub const BUFFER: usize = 4096;
/// The words of the kinds 1 to 5.
pub const WORDS: [&str; 5] = ["begin", "read", "write", "commit", "abort"];

/// Fills the step buffer with the steps and then zeros, and answers the
/// number of steps. A refused text leaves the buffer as it was.
pub fn read(text: &[u8], buffer: &mut [u16]) -> Result<usize, Refusal> {
    if buffer.len() != BUFFER {
        return refuse(12, 0);
    }
    if text.len() > BYTES {
        return refuse(15, 0);
    }
    let run = read_lines(text)?;
    buffer.fill(0);
    buffer[..run.len()].copy_from_slice(&run);
    Ok(run.len() / 4)
}

/// The run of numbers of an accepted text.
pub fn read_run(text: &[u8]) -> Result<Vec<u16>, Refusal> {
    let mut buffer = vec![0; BUFFER];
    let steps = read(text, &mut buffer)?;
    buffer.truncate(4 * steps);
    Ok(buffer)
}

/// 16 and 2, line by line, first line first.
fn read_lines(text: &[u8]) -> Result<Vec<u16>, Refusal> {
    let Some((header, mut rest)) = first_line(text) else {
        return refuse(16, 0);
    };
    let Some(count) = header_number(header) else {
        return refuse(16, 0);
    };
    let count = count as usize;
    if count > STEPS {
        return refuse(2, 0);
    }
    let mut run = Vec::new();
    for place in 1..=count {
        let Some((line, behind)) = first_line(rest) else {
            return refuse(16, place);
        };
        let Some(step) = step_numbers(line) else {
            return refuse(16, place);
        };
        run.extend(step);
        rest = behind;
    }
    if !rest.is_empty() {
        return refuse(16, count + 1);
    }
    Ok(run)
}

/// The bytes before the first LF and those behind it; none if there is no LF.
fn first_line(text: &[u8]) -> Option<(&[u8], &[u8])> {
    let end = text.iter().position(|&byte| byte == b'\n')?;
    Some((&text[..end], &text[end + 1..]))
}

/// `steps=N`
pub fn header_number(line: &[u8]) -> Option<u16> {
    number(line.strip_prefix(b"steps=")?)
}

/// `op=WORD tx=T obj=X from=S`, one blank between.
pub fn step_numbers(line: &[u8]) -> Option<[u16; 4]> {
    let parts: Vec<&[u8]> = line.split(|&byte| byte == b' ').collect();
    if parts.len() != 4 {
        return None;
    }
    Some([
        kind(parts[0].strip_prefix(b"op=")?)?,
        number(parts[1].strip_prefix(b"tx=")?)?,
        number(parts[2].strip_prefix(b"obj=")?)?,
        number(parts[3].strip_prefix(b"from=")?)?,
    ])
}

fn kind(word: &[u8]) -> Option<u16> {
    let place = WORDS.iter().position(|w| w.as_bytes() == word)?;
    Some(place as u16 + 1)
}

/// Decimal 0..65535 without leading zeros.
pub fn number(digits: &[u8]) -> Option<u16> {
    if digits.is_empty() || digits.len() > 5 {
        return None;
    }
    if digits[0] == b'0' && digits.len() > 1 {
        return None;
    }
    let mut value = 0u32;
    for &digit in digits {
        if !digit.is_ascii_digit() {
            return None;
        }
        value = 10 * value + (digit - b'0') as u32;
    }
    u16::try_from(value).ok()
}
