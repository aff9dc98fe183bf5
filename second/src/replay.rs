//! Replay: runs serial orders one transaction at a time. Which of them
//! explain the log, which explain it loosely, the exact verdict, the list.

use crate::log::{refuse, Kind, Log, Refusal, Step, OBJECTS, TRANSACTIONS};
use crate::permutations;
use crate::verdicts::{clean, version, Answer};

/// The exact search takes at most this many committed transactions.
const EXACT: usize = 8;
/// Up to this many committed transactions the list tries every order.
const FEW: usize = 7;

/// What replay needs of a log.
pub struct Replay {
    clean: bool,
    committed: Vec<usize>,
    /// For each transaction its judged reads from another and its writes.
    doings: Vec<Vec<Step>>,
    /// For each object its committed writers in commit order.
    writers: Vec<Vec<usize>>,
}

impl Replay {
    pub fn new(log: &Log) -> Replay {
        let mut doings = vec![Vec::new(); TRANSACTIONS + 1];
        for step in &log.steps {
            let own_read = step.kind == Kind::Read && step.from == step.tx;
            if step.touches() && log.is_committed(step.tx) && !own_read {
                doings[step.tx].push(*step);
            }
        }
        Replay {
            clean: clean(log).is_none(),
            committed: log.committed(),
            doings,
            writers: (0..OBJECTS)
                .map(|obj| log.committed_writers(obj).to_vec())
                .collect(),
        }
    }

    /// The log is clean, every judged read from another finds its source as
    /// last writer, and the committed writers come in commit order.
    pub fn explains(&self, order: &[usize]) -> bool {
        self.explains_loosely(order) && self.keeps_commit_order(order)
    }

    /// Without the condition on commit order.
    pub fn explains_loosely(&self, order: &[usize]) -> bool {
        self.clean && self.first_misread(order).is_none()
    }

    /// The place of the first transaction in the order with a read that does
    /// not find its source as last writer of the object (0 if none).
    fn first_misread(&self, order: &[usize]) -> Option<usize> {
        let mut last_writer = [0; OBJECTS];
        order.iter().position(|&tx| !self.run(tx, &mut last_writer))
    }

    /// Runs one transaction; false at a read that does not find its source.
    fn run(&self, tx: usize, last_writer: &mut [usize; OBJECTS]) -> bool {
        for step in &self.doings[tx] {
            if step.kind == Kind::Write {
                last_writer[step.obj] = tx;
            } else if last_writer[step.obj] != step.from {
                return false;
            }
        }
        true
    }

    /// The committed writers of each object come in commit order.
    fn keeps_commit_order(&self, order: &[usize]) -> bool {
        self.writers.iter().all(|writers| {
            let met: Vec<usize> = order
                .iter()
                .copied()
                .filter(|tx| writers.contains(tx))
                .collect();
            met == *writers
        })
    }

    /// The dictionary-first order that explains loosely. After an order that
    /// fails at some place, all that begin alike up to there fail as well.
    pub fn first_loose(&self) -> Option<Vec<usize>> {
        let mut order = self.committed.clone();
        while let Some(place) = self.first_misread(&order) {
            if !permutations::advance_past(&mut order, place) {
                return None;
            }
        }
        Some(order)
    }

    /// Hands over every explaining order, first in dictionary order first,
    /// until the taker answers false; answers whether the list was finished.
    pub fn list(&self, log: &Log, take: &mut dyn FnMut(&[usize]) -> bool) -> bool {
        if self.committed.len() <= FEW {
            return self.list_by_trying(take);
        }
        match version(log) {
            Answer::Order(_) => self.list_by_placing(take),
            _ => true,
        }
    }

    /// The list by replay of every order.
    pub fn list_by_trying(&self, take: &mut dyn FnMut(&[usize]) -> bool) -> bool {
        let mut order = self.committed.clone();
        loop {
            if self.explains(&order) && !take(&order) {
                return false;
            }
            if !permutations::advance(&mut order) {
                return true;
            }
        }
    }

    /// The list by placing one transaction after another.
    pub fn list_by_placing(&self, take: &mut dyn FnMut(&[usize]) -> bool) -> bool {
        !self.clean || self.go_on(&mut Placing::new(), take)
    }

    /// Tries every transaction at the next place, lowest first.
    fn go_on(&self, placing: &mut Placing, take: &mut dyn FnMut(&[usize]) -> bool) -> bool {
        if placing.order.len() == self.committed.len() {
            return take(&placing.order);
        }
        for &tx in &self.committed {
            if placing.placed[tx] || !self.writers_in_turn(tx, placing) {
                continue;
            }
            let before = placing.last_writer;
            let reads_found = self.run(tx, &mut placing.last_writer);
            placing.put(tx);
            if reads_found && self.none_too_late(placing) && !self.go_on(placing, take) {
                return false;
            }
            placing.take_back(tx);
            placing.last_writer = before;
        }
        true
    }

    /// Whatever the transaction writes was last written by the committed
    /// writer before it in commit order (0 if it is the first).
    fn writers_in_turn(&self, tx: usize, placing: &Placing) -> bool {
        (0..OBJECTS).all(
            |obj| match self.writers[obj].iter().position(|&w| w == tx) {
                None => true,
                Some(0) => placing.last_writer[obj] == 0,
                Some(turn) => placing.last_writer[obj] == self.writers[obj][turn - 1],
            },
        )
    }

    /// No transaction still to come reads a version that is already replaced.
    fn none_too_late(&self, placing: &Placing) -> bool {
        let replaced = |step: &Step| {
            let written = step.from == 0 || placing.placed[step.from];
            step.kind == Kind::Read && written && placing.last_writer[step.obj] != step.from
        };
        let mut to_come = self.committed.iter().filter(|&&tx| !placing.placed[tx]);
        !to_come.any(|&tx| self.doings[tx].iter().any(replaced))
    }
}

/// The transactions placed so far, and the last writer of each object.
struct Placing {
    order: Vec<usize>,
    placed: [bool; TRANSACTIONS + 1],
    last_writer: [usize; OBJECTS],
}

impl Placing {
    fn new() -> Placing {
        let placed = [false; TRANSACTIONS + 1];
        Placing {
            order: Vec::new(),
            placed,
            last_writer: [0; OBJECTS],
        }
    }

    fn put(&mut self, tx: usize) {
        self.order.push(tx);
        self.placed[tx] = true;
    }

    fn take_back(&mut self, tx: usize) {
        self.order.pop();
        self.placed[tx] = false;
    }
}

/// Number 13 with more than 8 committed transactions; unclean as above;
/// otherwise the dictionary-first order that explains loosely, or none.
pub fn exact(log: &Log) -> Result<Answer, Refusal> {
    let committed = log.committed().len();
    if committed > EXACT {
        return refuse(13, committed);
    }
    if let Some(fault) = clean(log) {
        return Ok(Answer::Unclean(fault));
    }
    Ok(match Replay::new(log).first_loose() {
        Some(order) => Answer::Order(order),
        None => Answer::None,
    })
}
