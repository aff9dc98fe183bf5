//! Every small log comes, and comes once.

use std::collections::HashSet;

use crate::every::{count_all, write_all, Bounds};

fn bounds(steps: usize, transactions: u16, objects: u16) -> Bounds {
    Bounds {
        steps,
        transactions,
        objects,
    }
}

/// With one transaction and one object, up to four steps: the empty log; its
/// begin and its end; one step between them; two of them, where a read behind
/// its own write has two sources and any other read has source 0.
#[test]
fn counted_by_hand() {
    assert_eq!(count_all(&bounds(4, 1, 1)), 1 + 2 + 2 * 2 + 2 * 5);
}

/// Two transactions that only begin and end: each end is one of two, and the
/// second begin comes behind the first step of the other one or later.
#[test]
fn without_objects() {
    let alone = 2 * 2;
    let both = 2 * 3 * 4;
    // with no object there is no step but begin and end, whose object is 0
    assert_eq!(
        count_all(&bounds(4, 2, 1)) - with_a_touch(),
        1 + alone + both
    );
}

/// The logs of `without_objects` in which something is read or written.
fn with_a_touch() -> u64 {
    let mut bytes = Vec::new();
    write_all(&bounds(4, 2, 1), &mut bytes).expect("a vector takes all");
    let text = String::from_utf8(bytes).expect("texts are ASCII");
    logs(&text)
        .iter()
        .filter(|log| log.contains("op=read") || log.contains("op=write"))
        .count() as u64
}

fn logs(stream: &str) -> Vec<&str> {
    let mut found = Vec::new();
    let mut rest = stream;
    while let Some((head, behind)) = rest.split_once('\n') {
        let (text, report) = head.split_once(' ').expect("two lengths");
        let text: usize = text.parse().expect("a length");
        let report: usize = report.parse().expect("a length");
        found.push(&behind[..text]);
        rest = &behind[text + report..];
    }
    found
}

#[test]
fn none_twice() {
    let mut bytes = Vec::new();
    let count = write_all(&bounds(6, 2, 2), &mut bytes).expect("a vector takes all");
    let text = String::from_utf8(bytes).expect("texts are ASCII");
    let all: HashSet<&str> = logs(&text).into_iter().collect();
    assert_eq!(all.len() as u64, count);
    assert_eq!(count, count_all(&bounds(6, 2, 2)));
}
