//! On made small logs: replay, graphs and searches say the same.

use super::short::loose_list;
use crate::graph::Graph;
use crate::log::Log;
use crate::make::Sort;
use crate::replay::{exact, Replay};
use crate::report::{log_of, orders};
use crate::verdicts::{clean, snapshot, version, version_edges, Answer, Snapshot};

const COUNT: usize = 1500;

/// The logs with few enough committed transactions to try every order.
fn logs() -> impl Iterator<Item = Log> {
    let all = (1..=COUNT).map(|index| Sort::Small.text(77, index));
    let logs = all.map(|text| log_of(&text).expect("small logs pass the check"));
    logs.filter(|log| log.committed().len() <= 7)
}

fn lists(log: &Log) -> [Vec<Vec<usize>>; 2] {
    let replay = Replay::new(log);
    let mut tried = Vec::new();
    let mut placed = Vec::new();
    replay.list_by_trying(&mut |order| {
        tried.push(order.to_vec());
        true
    });
    replay.list_by_placing(&mut |order| {
        placed.push(order.to_vec());
        true
    });
    [tried, placed]
}

/// All orders that keep every edge.
fn orders_of(graph: &Graph) -> Vec<Vec<usize>> {
    let mut all = Vec::new();
    let mut order = graph.first_order();
    while let Some(now) = order {
        order = graph.next_order(&now);
        all.push(now);
    }
    all
}

/// An order explains a clean log just when it keeps every version edge.
#[test]
fn explaining_orders() {
    for log in logs() {
        let [tried, placed] = lists(&log);
        assert_eq!(tried, placed);
        if clean(&log).is_none() {
            assert_eq!(tried, orders_of(&version_edges(&log)));
        } else {
            assert!(tried.is_empty());
        }
    }
}

/// Eight committed: the list is placed, and every order is tried against it.
#[test]
fn explaining_orders_of_eight() {
    let texts = (1..=COUNT).map(|index| Sort::Small.text(78, index));
    let logs = texts.map(|text| log_of(&text).expect("small logs pass the check"));
    for log in logs.filter(|log| log.committed().len() == 8).take(30) {
        let [tried, placed] = lists(&log);
        assert_eq!(tried, placed);
        assert_eq!(tried, super::short::list(&log));
        assert_eq!(exact(&log).ok() == Some(Answer::None), {
            clean(&log).is_none() && loose_list(&log).is_empty()
        });
    }
}

/// The list starts with the version verdict's order, or is empty.
#[test]
fn the_list_starts_with_the_version_order() {
    for log in logs() {
        let [list, _] = lists(&log);
        match version(&log) {
            Answer::Order(order) => assert_eq!(list.first(), Some(&order)),
            _ => assert!(list.is_empty()),
        }
    }
}

#[test]
fn exact_is_the_first_loose_order() {
    for log in logs() {
        let answer = exact(&log).expect("few committed");
        match loose_list(&log).into_iter().next() {
            Some(order) => assert_eq!(answer, Answer::Order(order)),
            None => match clean(&log) {
                Some(fault) => assert_eq!(answer, Answer::Unclean(fault)),
                None => assert_eq!(answer, Answer::None),
            },
        }
    }
}

/// Snapshot yes implies clean yes.
#[test]
fn snapshot_is_clean() {
    for log in logs().filter(|log| snapshot(log) == Snapshot::Yes) {
        assert_eq!(clean(&log), None);
    }
}

fn printed(text: &[u8], most: Option<usize>) -> String {
    let mut out = Vec::new();
    orders(text, most, &mut out).expect("memory takes it");
    String::from_utf8(out).expect("words and digits")
}

#[test]
fn printed_orders() {
    let text = super::short::text("b1 w1x c1 b2 r2x1 c2 b3 w3y c3");
    assert_eq!(
        printed(&text, None),
        "order 1 2 3\norder 1 3 2\norder 3 1 2\nnone\n"
    );
    assert_eq!(
        printed(&text, Some(4)),
        "order 1 2 3\norder 1 3 2\norder 3 1 2\nnone\n"
    );
    assert_eq!(printed(&text, Some(2)), "order 1 2 3\norder 1 3 2\n");
    assert_eq!(printed(b"steps=0\n", None), "order\nnone\n");
    assert_eq!(printed(b"steps=0", None), "refused=16 at=0\n");
    let cycle = super::short::text("b1 b2 r1y0 r2x0 w1x w2y c1 c2");
    assert_eq!(printed(&cycle, None), "none\n");
}
