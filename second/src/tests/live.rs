//! The live judge: the settled points, the places, agreement with the report of
//! the whole log, and what is watched line by line.

use super::short::run;
use crate::histogram::Table;
use crate::live::{Live, Said, ROOM};
use crate::make::Sort;
use crate::report::report;
use crate::watch::watch;
use crate::write::text_of;

/// The places, the steps, and the answer to each.
const POINTS: [(usize, &str, &str); 21] = [
    (128, "b1 r1x1 w1x c1", "taken taken taken breach"),
    (128, "b1 w1x r1x1 c1", "taken taken taken yes"),
    (
        128,
        "b1 r1x2 b2 w2x c2 c1",
        "taken taken taken taken yes breach",
    ),
    (128, "b1 w1x r1x0 c1", "taken taken taken breach"),
    (128, "b1 r1x500 a1 b2 c2", "taken taken taken taken yes"),
    (1, "b1 b2 w2x c1 b2 c2", "taken 18 8 yes taken yes"),
    (128, "b5 b5 b4 c4 b6", "taken 7 7 8 taken"),
    (
        128,
        "b300 w300{64} w300{63} r300x65535",
        "taken 5 taken taken",
    ),
    (1, "b1 b2:1 b1 b2", "taken 6 7 18"),
    (2, "b1 b2 b3 a1 b3 b4", "taken taken 18 taken taken 18"),
    (
        128,
        "b1 w1x b2 r2x1 c2 c1",
        "taken taken taken taken breach breach",
    ),
    (
        128,
        "b1 b2 r1y0 r2x0 w1x w2y c1 c2 c7 b0",
        "taken taken taken taken taken taken yes cycle_closed cycle_closed cycle_closed",
    ),
    (
        3,
        "b1 b2 w2x r1x0 c1 b3 c2 b4",
        "taken taken taken taken yes taken yes taken",
    ),
    (
        3,
        "b1 b2 w2x r1x0 c1 b3 c2 b4 b5",
        "taken taken taken taken yes taken yes taken 18",
    ),
    (2, "b1 b2 c2 b3", "taken taken yes 18"),
    (2, "b1 b2 c2 c1 b3 b4", "taken taken yes yes taken taken"),
    (2, "b1 b2 c2 a1 b3 b4", "taken taken yes taken taken taken"),
    (128, "b5 c5 b5 w5x b4 b6", "taken yes 7 8 7 taken"),
    (
        1,
        "b1 w1x c1 b2 r2x1 w2x c2 b3 r3x2 c3",
        "taken taken yes taken taken taken yes taken taken yes",
    ),
    (
        1,
        "b1 w1x c1 b2 w2x c2 b3 r3x1 c3 b4",
        "taken taken yes taken taken yes taken taken breach breach",
    ),
    (
        3,
        "b1 r1y0 b2 w2y c2 b3 r3y2 r3x0 w1x c1 b4 c3",
        "taken taken taken taken yes taken taken taken taken yes 18 cycle_closed",
    ),
];

#[test]
fn points() {
    for (room, short, answers) in POINTS {
        assert_eq!(answers_to(room, &run(short)), answers, "{short}");
    }
}

/// The answers one behind the other, with a number alone where it refuses.
fn answers_to(room: usize, run: &[u16]) -> String {
    let mut judge = Live::new(room);
    let said = run.chunks(4).map(|step| judge.take(step).line());
    let words = said.map(|line| line.replace("refused=", "").replace(' ', "_"));
    words.collect::<Vec<_>>().join(" ")
}

/// On one step the numbers come in the order 3, 4, 5, 6, 7, 18 and 8.
#[test]
fn the_first_number_counts() {
    let mut judge = Live::new(1);
    assert_eq!(judge.take(&[1, 9, 0, 0]), Said::Taken);
    let steps = [
        ([0, 0, 64, 1], 3),
        ([6, 9, 0, 0], 3),
        ([1, 0, 1, 1], 4),
        ([1, 9, 1, 1], 5),
        ([4, 8, 1, 1], 5),
        ([2, 8, 64, 0], 5),
        ([1, 9, 0, 1], 6),
        ([3, 8, 63, 1], 6),
        ([1, 9, 0, 0], 7),
        ([1, 10, 0, 0], 18),
        ([2, 10, 63, 65535], 8),
    ];
    for (step, number) in steps {
        assert_eq!(judge.take(&step), Said::Refused(number), "{step:?}");
    }
}

/// Any number may begin and abort, one after another; only 128 may be open.
#[test]
fn the_places() {
    let mut judge = Live::new(ROOM);
    for tx in 1..=300 {
        assert_eq!(judge.take(&[1, tx, 0, 0]), Said::Taken);
        assert_eq!(judge.take(&[5, tx, 0, 0]), Said::Taken);
    }
    for tx in 301..=428 {
        assert_eq!(judge.take(&[1, tx, 0, 0]), Said::Taken);
    }
    assert_eq!(judge.take(&[1, 65_535, 0, 0]), Said::Refused(18));
    assert_eq!(judge.take(&[5, 65_535, 0, 0]), Said::Refused(8));
    assert_eq!(judge.take(&[4, 301, 0, 0]), Said::Yes);
    assert_eq!(judge.take(&[1, 65_535, 0, 0]), Said::Refused(18));
    assert_eq!(judge.take(&[5, 302, 0, 0]), Said::Taken);
    assert_eq!(judge.take(&[1, 65_535, 0, 0]), Said::Taken);
}

/// Something stands at the end exactly where the report of the whole log says
/// that it is no snapshot, or has a cycle; breach if only the former.
#[test]
fn agreement_with_the_report() {
    let mut met = [0; 3];
    for index in 1..=1500 {
        let Some(run) = rising(&Sort::Small.text(11, index)) else {
            continue;
        };
        let report = report(text_of(&run).as_bytes());
        let has = |start: &str| report.lines().any(|line| line.starts_with(start));
        let mut judge = Live::new(ROOM);
        let said: Vec<Said> = run.chunks(4).map(|step| judge.take(step)).collect();
        let last = said.iter().copied().find(|said| said.stands());
        let (breach, cycle) = (!has("snapshot=yes"), has("version=cycle"));
        match last {
            None => assert!(!breach && !cycle, "{report}"),
            Some(Said::Breach) => assert!(breach, "{report}"),
            _ => assert!(cycle, "{report}"),
        }
        let kind = match last {
            None => 0,
            Some(Said::Breach) => 1,
            _ => 2,
        };
        met[kind] += 1;
    }
    assert!(met.iter().all(|&times| times > 30), "{met:?}");
}

/// The run of a small log with its transactions numbered by their begins; none
/// if a read comes before the begin of its source.
fn rising(text: &[u8]) -> Option<Vec<u16>> {
    let mut run = crate::text::read_run(text).ok()?;
    let begins = run.chunks(4).filter(|step| step[0] == 1);
    let begun: Vec<u16> = begins.map(|step| step[1]).collect();
    let place = |tx: u16| {
        begun
            .iter()
            .position(|&one| one == tx)
            .map(|i| i as u16 + 1)
    };
    for step in run.chunks_mut(4) {
        step[1] = place(step[1])?;
        step[3] = if step[3] == 0 { 0 } else { place(step[3])? };
    }
    Some(run)
}

const WATCHED: [(&str, &str); 12] = [
    ("", ""),
    ("steps=0\n", ""),
    ("steps=65535\nop=begin tx=7 obj=0 from=0\n", "taken"),
    ("steps=65536\n", "refused=16"),
    ("steps=1", "refused=16"),
    ("\nsteps=1\n", "refused=16; refused=16"),
    ("steps=1\nsteps=1\n", "refused=16"),
    ("op=begin tx=7 obj=0 from=0", "refused=16"),
    (
        "op=begin tx=7 obj=0 from=0\nop=commit tx=7 obj=0 from=0\n",
        "taken; yes",
    ),
    (
        "op=begin tx=7 obj=0 from=0\r\nop=commit tx=7 obj=0 from=0\n",
        "refused=16; refused=8",
    ),
    (
        "op=begin tx=07 obj=0 from=0\nop=begin tx=65536 obj=0 from=0\nop=begin tx=65535 obj=0 from=0\n",
        "refused=16; refused=16; taken",
    ),
    (
        "op=begin tx=7 obj=0 from=0\nop=read tx=7 obj=0 from=7\nop=commit tx=7 obj=0 from=0\nx\nop=abort tx=0 obj=0 from=0\n",
        "taken; taken; breach; refused=16; breach",
    ),
];

#[test]
fn watched() {
    for (text, answers) in WATCHED {
        let lines = watch(text.as_bytes());
        assert!(lines.is_empty() || lines.ends_with('\n'));
        assert_eq!(lines.trim_end().replace('\n', "; "), answers, "{text}");
    }
}

/// A stored log with its header and without it, the answers are the same.
#[test]
fn stored_logs_are_watched() {
    for index in 1..=100 {
        let text = Sort::Small.text(3, index);
        let header = text.iter().position(|&byte| byte == b'\n').expect("an LF") + 1;
        assert_eq!(watch(&text), watch(&text[header..]));
    }
}

/// Of further seeds, as the gate takes any.
#[test]
fn every_live_outcome_is_reached() {
    for seed in [2, 3] {
        let mut table = Table::default();
        table.add_texts(Sort::Live, seed, 400);
        table.add_streams(seed, 400);
        assert!(table.missed.is_empty(), "{:?}", table.missed);
    }
}
