//! The writer: back to the same bytes and the same steps, its refusals, the
//! longest text, and the logs of some transactions alone.

use super::short::{run, text};
use crate::every::{each, Bounds};
use crate::make::{Sort, SORTS};
use crate::report::{log_of, report};
use crate::text::{read_run, BYTES};
use crate::write::{keep, text_of, transactions, write, LONGEST};

const COUNT: usize = 160;

/// A text that is accepted comes back byte for byte, and any other gets the
/// refusal of its report; true for the first.
fn comes_back(text: &[u8]) -> bool {
    let accepted = log_of(text).is_ok();
    if accepted {
        assert!(text.len() <= LONGEST);
        assert_eq!(write(text).as_bytes(), text);
    } else {
        assert_eq!(write(text), report(text));
    }
    accepted
}

/// Each kind has texts of the sort that it is for.
#[test]
fn made_texts() {
    for seed in [1, 2, 3, 4] {
        for sort in SORTS {
            let texts = (1..=COUNT).map(|index| sort.text(seed, index));
            let accepted = texts.filter(|text| comes_back(text)).count();
            match sort {
                Sort::Small | Sort::Tangled => assert_eq!(accepted, COUNT),
                Sort::Damaged | Sort::Live => assert!(accepted < COUNT / 4),
                Sort::Texts => assert!((COUNT / 20..COUNT / 2).contains(&accepted)),
                Sort::Limits => assert!((COUNT / 2..COUNT).contains(&accepted)),
            }
        }
    }
}

/// Every small log: what is written is read as the same numbers.
#[test]
fn small_logs_are_read_back() {
    let bounds = Bounds {
        steps: 6,
        transactions: 2,
        objects: 2,
    };
    let mut count = 0;
    each(&bounds, &mut |run| {
        count += 1;
        assert_eq!(read_run(text_of(run).as_bytes()).as_deref(), Ok(run));
        Ok(())
    })
    .expect("nothing is written");
    assert!(count > 1000);
}

/// Logs in short form, with numbers of each length: the same numbers again.
#[test]
fn short_logs_are_read_back() {
    for short in [
        "b1 b2 r1y0 r2x0 w1x w2y c1 c2",
        "b9 w9{9} r9{9}9 a9 b10 r10{9}9 c10",
        "b99 w99{10} b100 r100{10}99 c100 r99{10}99 a99",
        "b128 w128{63} r128{63}128 c128 b127 r127{63}128 r127{62}0 a127",
    ] {
        let run = run(short);
        let written = write(&text(short));
        assert_eq!(written.as_bytes(), text(short), "{short}");
        assert_eq!(read_run(written.as_bytes()), Ok(run), "{short}");
    }
}

#[test]
fn words_and_numbers() {
    assert_eq!(write(b"steps=0\n"), "steps=0\n");
    assert_eq!(text_of(&[]), "steps=0\n");
    assert_eq!(
        text_of(&run("b7 w7{10} r7{10}7 r7x0 c7 b100 a100")),
        "steps=7
op=begin tx=7 obj=0 from=0
op=write tx=7 obj=10 from=0
op=read tx=7 obj=10 from=7
op=read tx=7 obj=0 from=0
op=commit tx=7 obj=0 from=0
op=begin tx=100 obj=0 from=0
op=abort tx=100 obj=0 from=0
"
    );
}

const REFUSED: [(&[u8], &str); 9] = [
    (b"", "refused=16 at=0\n"),
    (b"steps=0", "refused=16 at=0\n"),
    (b"steps=1025\n", "refused=2 at=0\n"),
    (b"steps=0\n\n", "refused=16 at=1\n"),
    (
        b"steps=1\nop=begin tx=1 obj=0 from=0\n",
        "refused=11 at=1\n",
    ),
    (b"steps=1\nop=begin tx=1 obj=0 from=1\n", "refused=6 at=0\n"),
    (b"steps=1\nop=begin tx=1 obj=1 from=1\n", "refused=5 at=0\n"),
    (
        b"steps=1\nop=write tx=65535 obj=0 from=0\n",
        "refused=4 at=0\n",
    ),
    (b"steps=1\nop=abort tx=1 obj=0 from=0\n", "refused=8 at=0\n"),
];

#[test]
fn refusals() {
    for (text, line) in REFUSED {
        assert_eq!(write(text), line, "{}", String::from_utf8_lossy(text));
    }
    assert_eq!(write(&vec![b'x'; BYTES + 1]), "refused=15 at=0\n");
    assert_eq!(write(&text("b1 r1x1 c1")), "refused=9 at=1\n");
    assert_eq!(write(&text("b1 w1x r1x2 c1")), "refused=9 at=2\n");
    assert_eq!(write(&text("b1 c1 b1 c1")), "refused=7 at=2\n");
}

/// One transaction that writes once and reads that as often as it can.
#[test]
fn the_longest() {
    for (tx, obj) in [(128, 63), (100, 10)] {
        let reads = format!("r{tx}{{{obj}}}{tx} ").repeat(1021);
        let short = format!("b{tx} w{tx}{{{obj}}} {reads} c{tx}");
        assert_eq!(run(&short).len(), 4 * 1024);
        assert_eq!(text_of(&run(&short)).len(), LONGEST);
        assert_eq!(write(&text(&short)).into_bytes(), text(&short));
    }
    assert!((1..=COUNT).any(|index| Sort::Limits.text(1, index).len() == LONGEST));
}

/// A log, the transactions kept, and what is left of it, in short form or as
/// a refusal.
const KEPT: [(&str, &[u16], &str); 17] = [
    ("", &[1], ""),
    ("b1 w1x c1 b2 r2x1 c2", &[1, 2], "b1 w1x c1 b2 r2x1 c2"),
    ("b1 w1x c1 b2 r2x1 c2", &[1], "b1 w1x c1"),
    ("b1 w1x c1 b2 r2x1 c2", &[3, 128], ""),
    ("b1 w1x c1 b2 r2x1 c2", &[1, 1, 7], "b1 w1x c1"),
    ("b1 b2 w2x r1x0 c2 a1", &[1], "b1 r1x0 a1"),
    ("b3 b1 b2 c2 c3 c1", &[2, 3], "b3 b2 c2 c3"),
    ("b2 w2x r2x2 b20 r20x2 c20 c2", &[2], "b2 w2x r2x2 c2"),
    ("b129 b1 r1{63}0 c1 c0", &[1], "b1 r1{63}0 c1"),
    ("b1 w1x c1 b2 c2 b2", &[1], "b1 w1x c1"),
    ("b1 c1 b2 w2x", &[1], "b1 c1"),
    // a read that misses its own write is as good a step as any
    ("b1 w1x b2 w2x r2x0 c2 c1", &[2], "b2 w2x r2x0 c2"),
    // the source is left out: 9
    ("b1 w1x c1 b2 r2x1 c2", &[2], "refused=9 at=1\n"),
    // places count what is kept
    ("b1 c1 b2 c2 b2", &[2], "refused=7 at=2\n"),
    ("b1 c1 w2x", &[2], "refused=8 at=0\n"),
    ("b1 w1x b2 w2x r2x1 c2 c1", &[2], "refused=9 at=2\n"),
    ("b9 b1 c1 b7", &[7, 1, 9], "refused=11 at=7\n"),
];

#[test]
fn some_transactions() {
    for (short, kept, left) in KEPT {
        let due = if left.starts_with("refused") {
            left.as_bytes().to_vec()
        } else {
            text(left)
        };
        let said = keep(kept, &text(short)).into_bytes();
        assert_eq!(said, due, "{short} {kept:?}");
    }
    assert_eq!(keep(&[1], b"steps=0"), "refused=16 at=0\n");
    assert_eq!(keep(&[1], b"steps=2000\n"), "refused=2 at=0\n");
}

/// The text with only the lines that name one of these transactions.
fn lines_kept(kept: &[u16], text: &[u8]) -> Vec<u8> {
    let text = String::from_utf8_lossy(text);
    let names = |line: &str, tx: &u16| line.contains(&format!(" tx={tx} "));
    let lines: Vec<&str> = text
        .lines()
        .skip(1)
        .filter(|line| kept.iter().any(|tx| names(line, tx)))
        .collect();
    let all: String = lines.iter().map(|line| format!("{line}\n")).collect();
    format!("steps={}\n{all}", lines.len()).into_bytes()
}

/// Lines taken out of a text that can be read, well-formed or not, and steps
/// taken out of its log: the same is written, and both answers occur.
#[test]
fn lines_and_steps() {
    let lists: [&[u16]; 6] = [&[1], &[2, 1], &[2, 3, 4, 5], &[7, 3], &[100, 5, 6], &[64]];
    let (mut written, mut refused) = (0, 0);
    for sort in [Sort::Small, Sort::Damaged, Sort::Limits] {
        for text in (1..=COUNT).map(|index| sort.text(5, index)) {
            if read_run(&text).is_err() {
                assert_eq!(keep(&[1], &text), report(&text));
                continue;
            }
            for kept in lists {
                let said = keep(kept, &text);
                assert_eq!(said, write(&lines_kept(kept, &text)));
                refused += said.starts_with("refused=") as usize;
                written += said.contains("op=") as usize;
            }
        }
    }
    assert!(written > 300 && refused > 300, "{written} {refused}");
}

/// With every transaction kept, the answer is that to the whole.
#[test]
fn all_transactions() {
    let all: Vec<u16> = (1..=128).collect();
    for sort in [Sort::Small, Sort::Texts, Sort::Limits] {
        for text in (1..=COUNT).map(|index| sort.text(6, index)) {
            let whole = write(&text);
            if !whole.starts_with("refused=4 ") {
                assert_eq!(keep(&all, &text), whole);
            }
        }
    }
}

#[test]
fn lists() {
    assert_eq!(transactions("1"), Some(vec![1]));
    assert_eq!(transactions("128,1,128,2"), Some(vec![128, 1, 128, 2]));
    for list in [
        "", ",", "0", "129", "1,", ",1", "1,,2", "1 ", " 1", "1, 2", "+1", "-1", "01", "1;2", "x",
        "1,0", "65536", "65537", "1.0",
    ] {
        assert_eq!(transactions(list), None, "{list}");
    }
}
