//! Graphs on vertices from 1 on: the first order that keeps every edge, the
//! first order after a given one, the first shortest cycle.

use crate::permutations;

/// Up to this many members every sequence is tried.
const FEW: usize = 7;

/// Members, lowest first, and edges between different members.
pub struct Graph {
    members: Vec<usize>,
    takes_part: Vec<bool>,
    edges: Vec<Vec<bool>>,
}

impl Graph {
    pub fn new(mut members: Vec<usize>) -> Graph {
        members.sort();
        let size = members.last().map_or(1, |highest| highest + 1);
        let mut takes_part = vec![false; size];
        for &member in &members {
            takes_part[member] = true;
        }
        Graph {
            members,
            takes_part,
            edges: vec![vec![false; size]; size],
        }
    }

    /// Adds an edge. One from a vertex to itself, or at a vertex that takes
    /// no part, is dropped.
    pub fn join(&mut self, from: usize, to: usize) {
        if from != to && self.has(from) && self.has(to) {
            self.edges[from][to] = true;
        }
    }

    fn has(&self, vertex: usize) -> bool {
        self.takes_part.get(vertex) == Some(&true)
    }

    pub fn leads(&self, from: usize, to: usize) -> bool {
        self.edges[from][to]
    }

    pub fn has_cycle(&self) -> bool {
        self.has_cycle_among(&self.members)
    }

    /// Taking out again and again a vertex that none of the others leads to
    /// leaves some of these.
    pub fn has_cycle_among(&self, vertices: &[usize]) -> bool {
        let mut left = vertices.to_vec();
        let is_first = |left: &[usize], v: usize| !left.iter().any(|&p| self.leads(p, v));
        while let Some(place) = left.iter().position(|&v| is_first(&left, v)) {
            left.remove(place);
        }
        !left.is_empty()
    }

    /// No later entry leads to an earlier one.
    pub fn keeps_every_edge(&self, order: &[usize]) -> bool {
        (0..order.len()).all(|late| (0..late).all(|early| !self.leads(order[late], order[early])))
    }

    /// The first order in dictionary order that keeps every edge; none if
    /// there is a cycle.
    pub fn first_order(&self) -> Option<Vec<usize>> {
        if self.members.len() <= FEW {
            self.first_order_by_trying()
        } else {
            self.first_order_by_taking()
        }
    }

    /// The first order after this one that keeps every edge.
    pub fn next_order(&self, order: &[usize]) -> Option<Vec<usize>> {
        if self.members.len() <= FEW {
            self.next_order_by_trying(order)
        } else {
            self.next_order_by_taking(order)
        }
    }

    /// Among the shortest cycles, each written from its lowest member on, the
    /// first in dictionary order; none if there is no cycle.
    pub fn first_shortest_cycle(&self) -> Option<Vec<usize>> {
        if self.members.len() <= FEW {
            self.first_cycle_by_trying()
        } else {
            self.first_cycle_by_walking()
        }
    }
}

/// Every sequence is tried, first in dictionary order first.
impl Graph {
    pub fn first_order_by_trying(&self) -> Option<Vec<usize>> {
        let order = self.members.clone();
        if self.keeps_every_edge(&order) {
            return Some(order);
        }
        self.next_order_by_trying(&order)
    }

    pub fn next_order_by_trying(&self, order: &[usize]) -> Option<Vec<usize>> {
        let mut order = order.to_vec();
        while permutations::advance(&mut order) {
            if self.keeps_every_edge(&order) {
                return Some(order);
            }
        }
        None
    }

    pub fn first_cycle_by_trying(&self) -> Option<Vec<usize>> {
        for length in 2..=self.members.len() {
            for &lowest in &self.members {
                let mut sequence = vec![lowest];
                if self.try_sequences(&mut sequence, length) {
                    return Some(sequence);
                }
            }
        }
        None
    }

    /// Looks for a cycle of this length that goes on from the sequence.
    fn try_sequences(&self, sequence: &mut Vec<usize>, length: usize) -> bool {
        if sequence.len() == length {
            return self.is_cycle(sequence);
        }
        for &member in &self.members {
            if member > sequence[0] && !sequence.contains(&member) {
                sequence.push(member);
                if self.try_sequences(sequence, length) {
                    return true;
                }
                sequence.pop();
            }
        }
        false
    }

    /// Each leads to the one behind it, and the last leads back to the first.
    pub fn is_cycle(&self, sequence: &[usize]) -> bool {
        let length = sequence.len();
        length >= 2 && (0..length).all(|i| self.leads(sequence[i], sequence[(i + 1) % length]))
    }
}

/// For many members: only what can still be kept is looked at.
impl Graph {
    pub fn first_order_by_taking(&self) -> Option<Vec<usize>> {
        self.complete(Vec::new())
    }

    /// A later order differs first at some place; the last such place is best,
    /// and there the lowest larger vertex that may stand.
    pub fn next_order_by_taking(&self, order: &[usize]) -> Option<Vec<usize>> {
        for place in (0..order.len()).rev() {
            let mut start = order[..place].to_vec();
            if let Some(vertex) = self.lowest_free(&start, order[place] + 1) {
                start.push(vertex);
                return self.complete(start);
            }
        }
        None
    }

    /// Takes again and again the lowest vertex with no unplaced predecessor.
    fn complete(&self, mut placed: Vec<usize>) -> Option<Vec<usize>> {
        while placed.len() < self.members.len() {
            let vertex = self.lowest_free(&placed, 1)?;
            placed.push(vertex);
        }
        Some(placed)
    }

    /// The lowest unplaced vertex, not below the least, with no unplaced
    /// predecessor.
    fn lowest_free(&self, placed: &[usize], least: usize) -> Option<usize> {
        let mut is_placed = vec![false; self.takes_part.len()];
        for &vertex in placed {
            is_placed[vertex] = true;
        }
        let waits = |v: usize| {
            self.members
                .iter()
                .any(|&p| !is_placed[p] && self.leads(p, v))
        };
        let mut open = self
            .members
            .iter()
            .copied()
            .filter(|&v| v >= least && !is_placed[v]);
        open.find(|&v| !waits(v))
    }

    pub fn first_cycle_by_walking(&self) -> Option<Vec<usize>> {
        let ways: Vec<_> = self
            .members
            .iter()
            .map(|&lowest| self.ways_back(lowest))
            .collect();
        for length in 2..=self.members.len() {
            for (way, &lowest) in ways.iter().zip(&self.members) {
                let mut path = vec![lowest];
                if self.walk(&mut path, length, way) {
                    return Some(path);
                }
            }
        }
        None
    }

    /// For each vertex the number of edges on a shortest way to the lowest
    /// one, over members that are not lower.
    fn ways_back(&self, lowest: usize) -> Vec<Option<usize>> {
        let mut way = vec![None; self.takes_part.len()];
        way[lowest] = Some(0);
        let mut ring = vec![lowest];
        let mut distance = 0;
        while !ring.is_empty() {
            distance += 1;
            let mut wider = Vec::new();
            for &vertex in self.members.iter().filter(|&&v| v > lowest) {
                if way[vertex].is_none() && ring.iter().any(|&r| self.leads(vertex, r)) {
                    wider.push(vertex);
                }
            }
            for &vertex in &wider {
                way[vertex] = Some(distance);
            }
            ring = wider;
        }
        way
    }

    /// Looks for a cycle of this length that goes on from the path; leaves
    /// out what is too far from the start to be back in time.
    fn walk(&self, path: &mut Vec<usize>, length: usize, way: &[Option<usize>]) -> bool {
        if path.len() == length {
            return self.is_cycle(path);
        }
        let left = length - path.len();
        let end = path[path.len() - 1];
        for &vertex in &self.members {
            let in_time = way[vertex].is_some_and(|edges| edges <= left);
            if vertex > path[0] && in_time && self.leads(end, vertex) && !path.contains(&vertex) {
                path.push(vertex);
                if self.walk(path, length, way) {
                    return true;
                }
                path.pop();
            }
        }
        false
    }
}
