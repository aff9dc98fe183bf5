//! Texts that depart from the text form in many ways, texts that are too
//! long, headers beyond 1,024, and some sound texts between them.

use super::{damaged, small};
use crate::rng::Rng;
use crate::text::{BYTES, WORDS};

pub type Line = Vec<u8>;

/// Each index aims at one way to depart from the form.
pub fn text(rng: &mut Rng, index: usize) -> Vec<u8> {
    let mut lines = sound_lines(rng);
    let last = lines.len() - 1;
    match index % 20 {
        0 => spoil(rng, &mut lines[0]),
        1 => spoil(rng, &mut lines[1]),
        2 => spoil_inner(rng, &mut lines),
        3 => spoil(rng, &mut lines[last]),
        4 => return with_bytes_behind(rng, &lines),
        5 => return join(&lines[..]).split_last().expect("an LF").1.to_vec(),
        6 => return cut_anywhere(rng, &lines),
        7 => lines.truncate(rng.between(1, last)),
        8 => drop(lines.remove(rng.between(1, last))),
        9 => lines.insert(rng.between(1, last), lines[last].clone()),
        10 => lines[0] = header(&some_count(rng, last)),
        11 => return too_many_steps(rng, &lines),
        12 => return broken_large_header(rng, &lines),
        13 => return too_long(rng, &lines),
        14 => return in_form(rng.between(BYTES - 20, BYTES + 20)),
        15 => return odd_start(rng, &lines),
        16 => return one_byte_changed(rng, &lines),
        17 => spoil_two(rng, &mut lines),
        18 => spoil_damaged(rng, &mut lines, index),
        _ => {}
    }
    join(&lines)
}

/// The lines of a small log, without LF; at least three steps.
fn sound_lines(rng: &mut Rng) -> Vec<Line> {
    loop {
        let lines = split(&small::draft(rng).text());
        if lines.len() > 3 {
            return lines;
        }
    }
}

fn split(text: &[u8]) -> Vec<Line> {
    let mut lines: Vec<Line> = text.split(|&b| b == b'\n').map(|l| l.to_vec()).collect();
    lines.pop();
    lines
}

/// LF after every line.
pub fn join(lines: &[Line]) -> Vec<u8> {
    lines
        .iter()
        .flat_map(|line| [line.as_slice(), b"\n"].concat())
        .collect()
}

fn header(count: &str) -> Line {
    format!("steps={count}").into_bytes()
}

fn spoil_inner(rng: &mut Rng, lines: &mut [Line]) {
    let place = rng.between(2, lines.len() - 2);
    spoil(rng, &mut lines[place]);
}

/// The first of two spoilt lines counts.
fn spoil_two(rng: &mut Rng, lines: &mut [Line]) {
    for _ in 0..2 {
        let place = rng.below(lines.len());
        spoil(rng, &mut lines[place]);
    }
}

/// A spoilt line in a log that the check would turn away: the line counts.
fn spoil_damaged(rng: &mut Rng, lines: &mut Vec<Line>, index: usize) {
    *lines = split(&damaged::draft(rng, index).text());
    let place = lines.len() - 1;
    spoil(rng, &mut lines[place]);
}

/// One line departs from the form, nearly always.
pub fn spoil(rng: &mut Rng, line: &mut Line) {
    if !line.contains(&b'=') {
        return line.push(rng.below(256) as u8);
    }
    match rng.below(10) {
        0 => line.push(rng.pick(b"\r \0\tx0\xff\x80;=")),
        1 => line.insert(0, rng.pick(b"\r \0\t#\xef")),
        2 => line.clear(),
        3 => replace_byte(rng, line),
        4 => insert_byte(rng, line),
        5 => drop(line.remove(rng.below(line.len()))),
        6 => change_blank(rng, line),
        7 => change_number(rng, line),
        8 => change_word(rng, line),
        _ => change_parts(rng, line),
    }
}

fn replace_byte(rng: &mut Rng, line: &mut Line) {
    let place = rng.below(line.len());
    line[place] = rng.below(256) as u8;
}

fn insert_byte(rng: &mut Rng, line: &mut Line) {
    let place = rng.below(line.len() + 1);
    line.insert(place, rng.pick(b"\r \0\t0_+-,\n\xc3\xa9"));
}

/// A blank or a `=` becomes something else.
fn change_blank(rng: &mut Rng, line: &mut Line) {
    let is_blank = |&k: &usize| line[k] == b' ' || line[k] == b'=';
    let blanks: Vec<usize> = (0..line.len()).filter(is_blank).collect();
    let place = rng.pick(&blanks);
    let was = line[place] as char;
    let others = [
        format!("{was}{was}"),
        format!("{was} "),
        "\t".into(),
        "".into(),
        "\0".into(),
    ];
    let other = &others[rng.below(others.len())];
    line.splice(place..=place, other.bytes());
}

/// A number, the one behind some `=`, becomes something else.
fn change_number(rng: &mut Rng, line: &mut Line) {
    let signs: Vec<usize> = (0..line.len()).filter(|&k| line[k] == b'=').collect();
    let start = rng.pick(&signs) + 1;
    let length = line[start..]
        .iter()
        .take_while(|b| b.is_ascii_digit())
        .count();
    let digits = String::from_utf8_lossy(&line[start..start + length]).into_owned();
    let others = [
        "".to_string(),
        format!("0{digits}"),
        format!("00{digits}"),
        format!("+{digits}"),
        format!("-{digits}"),
        format!("{digits}.0"),
        format!("0x{digits}"),
        "65536".to_string(),
        "65537".to_string(),
        "99999".to_string(),
        "4294967297".to_string(),
        "18446744073709551617".to_string(),
        "340282366920938463463374607431768211457".to_string(),
        "\u{0661}".to_string(),
    ];
    let other = &others[rng.below(others.len())];
    line.splice(start..start + length, other.bytes());
}

/// The word of a step line becomes another or none.
fn change_word(rng: &mut Rng, line: &mut Line) {
    let odd = [
        "", "Begin", "READ", "writes", "comit", "aborted", "end", "1", "begin\0", "read,",
    ];
    let words = String::from_utf8_lossy(line).into_owned();
    let mut changed = words.replacen("steps", "Steps", 1);
    for word in WORDS {
        changed = changed.replacen(&format!("op={word}"), &format!("op={}", rng.pick(&odd)), 1);
    }
    *line = changed.into_bytes();
}

/// Parts of a line change places, are missing, or stand twice.
fn change_parts(rng: &mut Rng, line: &mut Line) {
    let mut parts: Vec<Line> = line.split(|&b| b == b' ').map(|p| p.to_vec()).collect();
    let one = rng.below(parts.len());
    match rng.below(4) {
        0 => parts.reverse(),
        1 => drop(parts.remove(one)),
        2 => parts.insert(one, parts[one].clone()),
        _ => parts[one].make_ascii_uppercase(),
    }
    *line = parts.join(&b' ');
}

fn with_bytes_behind(rng: &mut Rng, lines: &[Line]) -> Vec<u8> {
    let more: [&[u8]; 9] = [
        b"\n",
        b" ",
        b"x",
        b"\0",
        b"\r\n",
        b"\xff\xfe",
        b"\n\n\n",
        b"steps=0\n",
        b"op=begin tx=1 obj=0 from=0\n",
    ];
    let kept = if rng.chance(1, 4) {
        vec![header("0")]
    } else {
        lines.to_vec()
    };
    [join(&kept).as_slice(), rng.pick(&more)].concat()
}

fn cut_anywhere(rng: &mut Rng, lines: &[Line]) -> Vec<u8> {
    let mut text = join(lines);
    text.truncate(rng.below(text.len()));
    text
}

/// A count near the true one, or a number within the limit.
fn some_count(rng: &mut Rng, steps: usize) -> String {
    let near = [
        0,
        1,
        steps - 1,
        steps + 1,
        steps + 2,
        10 * steps,
        1023,
        1024,
    ];
    rng.pick(&near).to_string()
}

/// A header of 1,025 to 65,535 and anything behind it.
fn too_many_steps(rng: &mut Rng, lines: &[Line]) -> Vec<u8> {
    let count = rng.pick(&[1025, 1026, 2048, 4096, 9999, 10000, 32768, 65534, 65535]);
    let mut text = join(&[header(&count.to_string())]);
    match rng.below(4) {
        0 => {}
        1 => text.extend(b"anything"),
        2 => text.extend((0..40).map(|_| rng.below(256) as u8)),
        _ => text.extend(join(&lines[1..])),
    }
    text
}

/// A header beyond the limit that is itself no header line.
fn broken_large_header(rng: &mut Rng, lines: &[Line]) -> Vec<u8> {
    let starts: [&[u8]; 10] = [
        b"steps=1025",
        b"steps=1025 \n",
        b"steps=1025\r\n",
        b"steps=01025\n",
        b"steps=65536\n",
        b"steps=65535x\n",
        b" steps=1025\n",
        b"steps=18446744073709551617\n",
        b"steps=102\x305\n",
        b"steps=1025\0\n",
    ];
    let start = rng.pick(&starts);
    let behind = if start.ends_with(b"\n") {
        join(&lines[1..])
    } else {
        Vec::new()
    };
    [start, &behind].concat()
}

/// More than 33,803 bytes, whatever they are.
fn too_long(rng: &mut Rng, lines: &[Line]) -> Vec<u8> {
    let length = rng.pick(&[
        BYTES + 1,
        BYTES + 1,
        BYTES + 2,
        34_000,
        40_000,
        65_536,
        70_000,
    ]);
    let mut text = match rng.below(5) {
        0 => join(lines),
        1 => b"steps=1025\n".to_vec(),
        2 => b"steps=0\n".to_vec(),
        3 => Vec::new(),
        _ => return in_form(rng.between(BYTES + 1, 34_010)),
    };
    text.resize(length, rng.pick(b"\nx\0 \xff0"));
    text
}

/// A text in form with exactly so many bytes, 33,160 to 34,010, by numbers of
/// up to five digits.
fn in_form(bytes: usize) -> Vec<u8> {
    let count = 850;
    let mut text = join(&[header(&count.to_string())]);
    let longer = bytes - text.len() - count * 39;
    for k in 0..count {
        let from = if k < longer { "65535" } else { "6553" };
        text.extend(format!("op=commit tx=65535 obj=65535 from={from}\n").bytes());
    }
    text
}

fn odd_start(rng: &mut Rng, lines: &[Line]) -> Vec<u8> {
    let sound = join(lines);
    let starts: [&[u8]; 8] = [
        b"\xef\xbb\xbf",
        b"\n",
        b"\r\n",
        b" ",
        b"\0",
        b"x",
        b"s",
        b"steps=",
    ];
    match rng.below(6) {
        0 => Vec::new(),
        1 => vec![rng.below(256) as u8],
        2 => b"steps=0".to_vec(),
        3 => sound[lines[0].len() + 1..].to_vec(),
        _ => [rng.pick(&starts), &sound].concat(),
    }
}

fn one_byte_changed(rng: &mut Rng, lines: &[Line]) -> Vec<u8> {
    let mut text = join(lines);
    replace_byte(rng, &mut text);
    text
}
