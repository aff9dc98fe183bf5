//! Graphs: every sequence tried against the algorithms for many members.

use crate::graph::Graph;
use crate::graphs::lines;
use crate::rng::Rng;

/// A graph of so many members with so many edges of twelve.
fn random(rng: &mut Rng, size: usize, edges: usize, highest: usize) -> Graph {
    let mut vertices: Vec<usize> = (1..=highest).collect();
    rng.shuffle(&mut vertices);
    let members = &vertices[..size];
    let mut graph = Graph::new(members.to_vec());
    let forward = rng.chance(1, 2);
    for (i, &a) in members.iter().enumerate() {
        for (j, &b) in members.iter().enumerate() {
            if (!forward || i < j) && rng.chance(edges, 12) {
                graph.join(a, b);
            }
        }
    }
    graph
}

fn agree(graph: &Graph) {
    let order = graph.first_order_by_trying();
    assert_eq!(order, graph.first_order_by_taking());
    let cycle = graph.first_cycle_by_trying();
    assert_eq!(cycle, graph.first_cycle_by_walking());
    assert_eq!(order.is_some(), cycle.is_none());
    assert_eq!(graph.has_cycle(), cycle.is_some());
    let mut order = order;
    for _ in 0..20 {
        let Some(now) = order else { return };
        let next = graph.next_order_by_trying(&now);
        assert_eq!(next, graph.next_order_by_taking(&now));
        order = next;
    }
}

#[test]
fn trying_and_taking_agree() {
    let rng = &mut Rng::new(1, 100, 0);
    for round in 0..3000 {
        let size = round % 7;
        let (edges, highest) = (rng.between(0, 7), rng.pick(&[7, 12, 128]));
        agree(&random(rng, size, edges, highest));
    }
    for _ in 0..60 {
        agree(&random(rng, 8, 2, 128));
    }
}

#[test]
fn dropped_edges() {
    let mut graph = Graph::new(vec![2, 1]);
    graph.join(1, 1);
    graph.join(1, 3);
    graph.join(3, 1);
    graph.join(0, 2);
    assert_eq!(graph.first_shortest_cycle(), None);
    assert_eq!(graph.first_order(), Some(vec![1, 2]));
    assert_eq!(graph.next_order(&[1, 2]), Some(vec![2, 1]));
    assert_eq!(graph.next_order(&[2, 1]), None);
}

#[test]
fn no_members() {
    let graph = Graph::new(Vec::new());
    assert_eq!(graph.first_order(), Some(Vec::new()));
    assert_eq!(graph.first_order_by_taking(), Some(Vec::new()));
    assert_eq!(graph.next_order(&[]), None);
    assert_eq!(graph.first_cycle_by_walking(), None);
}

#[test]
fn printed_lines() {
    let text = lines();
    let all: Vec<&str> = text.lines().collect();
    assert!(all[0].starts_with("empty order 1 2 3 ") && all[0].ends_with(" 126 127 128"));
    assert!(all[1].starts_with("next 1 2 3 ") && all[1].ends_with(" 126 128 127"));
    assert!(all[2].ends_with(" 127 126 128"));
    assert!(all[3].ends_with(" 127 128 126"));
    assert!(all[4].ends_with(" 128 126 127"));
    assert!(all[5].starts_with("chain order 128 127 ") && all[6] == "next none");
    assert!(all[7].starts_with("complete order 128 127 ") && all[8] == "next none");
    assert!(all[9].starts_with("ring cycle 1 2 3 ") && all[9].ends_with(" 127 128"));
    assert_eq!(all[10], "two cycle 2 90 60 80");
    assert_eq!(all.iter().filter(|line| line.starts_with('r')).count(), 61);
}
