//! The graphs that a test of the graph layer makes, and what it should print
//! for each.

use crate::graph::Graph;
use crate::report::words;

const VERTICES: usize = 128;
/// So many later orders are printed at most.
const LATER: usize = 4;
/// So many random graphs.
const RANDOM: u64 = 60;

/// All lines, one graph after another.
pub fn lines() -> String {
    let mut text = String::new();
    for (name, graph) in graphs() {
        text.push_str(&lines_of(&name, &graph));
    }
    text
}

fn lines_of(name: &str, graph: &Graph) -> String {
    let Some(mut order) = graph.first_order() else {
        let cycle = graph
            .first_shortest_cycle()
            .expect("without an order there is a cycle");
        return words(&format!("{name} cycle"), &cycle) + "\n";
    };
    let mut text = words(&format!("{name} order"), &order) + "\n";
    for _ in 0..LATER {
        match graph.next_order(&order) {
            Some(next) => order = next,
            None => return text + "next none\n",
        }
        text.push_str(&(words("next", &order) + "\n"));
    }
    text
}

fn graphs() -> Vec<(String, Graph)> {
    let mut all = vec![
        ("empty".to_string(), whole(&[])),
        ("chain".to_string(), whole(&steps_down())),
        ("complete".to_string(), whole(&all_down())),
        ("ring".to_string(), whole(&ring())),
        ("two".to_string(), whole(&two_cycles())),
    ];
    for c in 1..=RANDOM {
        all.push((format!("r{c}"), random(c)));
    }
    all
}

/// All 128 vertices take part.
fn whole(edges: &[(usize, usize)]) -> Graph {
    let mut graph = Graph::new((1..=VERTICES).collect());
    for &(from, to) in edges {
        graph.join(from, to);
    }
    graph
}

fn steps_down() -> Vec<(usize, usize)> {
    (1..VERTICES).map(|k| (k + 1, k)).collect()
}

fn all_down() -> Vec<(usize, usize)> {
    (1..=VERTICES)
        .flat_map(|a| (1..a).map(move |b| (a, b)))
        .collect()
}

fn ring() -> Vec<(usize, usize)> {
    (1..=VERTICES).map(|k| (k, k % VERTICES + 1)).collect()
}

fn two_cycles() -> Vec<(usize, usize)> {
    let mut edges = vec![(3, 70), (70, 9), (9, 20), (20, 3)];
    edges.extend([(2, 90), (90, 60), (60, 80), (80, 2)]);
    edges.extend((100..VERTICES).map(|k| (k, k + 1)));
    edges
}

/// Random graph number c: first who takes part, then every pair.
fn random(c: u64) -> Graph {
    let mut state = c;
    let mut draw = |k: u64| {
        state = (state * 1_103_515_245 + 12_345) % 2_147_483_648;
        (state / 65_536) % k
    };
    let members: Vec<usize> = (1..=VERTICES).filter(|_| draw(12) == 0).collect();
    let density = 5 + c % 9;
    let mut graph = Graph::new(members);
    for a in 1..=VERTICES {
        for b in 1..=VERTICES {
            if draw(density) == 0 {
                graph.join(a, b);
            }
        }
    }
    graph
}
