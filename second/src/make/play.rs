//! Plays transactions against one another and writes down a log that passes
//! the check.

use super::draft::Draft;
use crate::rng::Rng;

/// Which version a read takes.
#[derive(Clone, Copy)]
pub enum Sources {
    /// The last committed before the reader's begin.
    Snapshot,
    /// The last committed before the read.
    LastCommitted,
    /// The last written, committed or not.
    LastWritten,
    /// Writer 0 or any that wrote the object.
    Any,
}

/// Who plays: the transactions in the order of their begins, the objects, and
/// the fewest and most reads and writes of each transaction.
pub struct Cast {
    pub numbers: Vec<u16>,
    pub objects: Vec<u16>,
    pub least: usize,
    pub most: usize,
}

/// How it is played; chances are in twelfths.
#[derive(Clone, Copy)]
pub struct Manner {
    pub crowd: usize,
    pub writes: usize,
    pub aborts: usize,
    pub strays: usize,
    /// Of the reads after the reader's own write of the object, how many miss it.
    pub misses: usize,
    pub sources: Sources,
    pub first_committer_wins: bool,
}

struct Player {
    tx: u16,
    begin: usize,
    left: usize,
}

struct Stage<'a> {
    rng: &'a mut Rng,
    cast: &'a Cast,
    manner: Manner,
    draft: Draft,
    open: Vec<Player>,
}

pub fn play(rng: &mut Rng, cast: &Cast, manner: Manner) -> Draft {
    let mut stage = Stage {
        rng,
        cast,
        manner,
        draft: Draft::default(),
        open: Vec::new(),
    };
    let mut waiting = cast.numbers.iter().copied();
    let mut coming = waiting.next();
    while coming.is_some() || !stage.open.is_empty() {
        match coming {
            Some(tx) if stage.wants_more() => {
                stage.enter(tx);
                coming = waiting.next();
            }
            _ => stage.act(),
        }
    }
    stage.draft
}

impl Stage<'_> {
    fn wants_more(&mut self) -> bool {
        self.open.is_empty() || self.rng.chance(self.manner.crowd, 12)
    }

    fn enter(&mut self, tx: u16) {
        let begin = self.draft.steps.len();
        let left = self.rng.between(self.cast.least, self.cast.most);
        self.draft.begin(tx);
        self.open.push(Player { tx, begin, left });
    }

    /// One step of one open transaction.
    fn act(&mut self) {
        let who = self.rng.below(self.open.len());
        let (tx, begin) = (self.open[who].tx, self.open[who].begin);
        if self.open[who].left == 0 {
            self.open.remove(who);
            return self.end(tx, begin);
        }
        self.open[who].left -= 1;
        let obj = self.rng.pick(&self.cast.objects);
        if self.rng.chance(self.manner.writes, 12) {
            self.draft.write(tx, obj);
        } else {
            let from = self.source(tx, begin, obj);
            self.draft.read(tx, obj, from);
        }
    }

    fn end(&mut self, tx: u16, begin: usize) {
        let loses = self.manner.first_committer_wins && self.draft.clashes(tx, begin);
        if loses || self.rng.chance(self.manner.aborts, 12) {
            self.draft.abort(tx);
        } else {
            self.draft.commit(tx);
        }
    }

    fn source(&mut self, tx: u16, begin: usize, obj: u16) -> u16 {
        if self.draft.wrote(tx, obj) && !self.rng.chance(self.manner.misses, 12) {
            return tx;
        }
        let stray = self.rng.chance(self.manner.strays, 12);
        let writers = self.draft.writers(obj);
        match self.manner.sources {
            _ if stray => self.any(&writers),
            Sources::Snapshot => self.draft.last_committed(obj, begin),
            Sources::LastCommitted => self.draft.last_committed(obj, self.draft.steps.len()),
            Sources::LastWritten => writers.last().copied().unwrap_or(0),
            Sources::Any => self.any(&writers),
        }
    }

    fn any(&mut self, writers: &[u16]) -> u16 {
        let place = self.rng.below(writers.len() + 1);
        writers.get(place).copied().unwrap_or(0)
    }
}
