//! Streams for the live judge: reads and writes of transactions that come and
//! go in some manner, bad steps between them, and the answer to each.

use super::bad;
use super::draft::{Draft, Numbers, ABORT, BEGIN, COMMIT, READ, WRITE};
use super::manner::{manner, Manner};
use super::scene::{Act, Scene};
use crate::live::{Live, Said, ROOM};
use crate::rng::Rng;

/// No stream has more steps, and most have no more than the usual.
pub const LONGEST: usize = 600;
pub const USUAL: usize = 300;
/// So many at most come after breach or a closed cycle.
const AFTER: usize = 30;

/// A step, and what the live judge says to it.
pub type Answered = (Numbers, Said);

struct Player {
    tx: u16,
    /// Its place among the good steps.
    begin: usize,
    left: usize,
    writes: bool,
    strayed: bool,
    holds: bool,
    /// Acts as the scene wants it.
    in_scene: bool,
}

struct Stage<'a> {
    rng: &'a mut Rng,
    manner: Manner,
    judge: Live,
    /// The good steps.
    draft: Draft,
    open: Vec<Player>,
    begun: Vec<u16>,
    /// After 18 nearly none begins until only so many are open.
    drains_to: Option<usize>,
    scene: Scene,
    /// The step at hand is one of the scene.
    is_act: bool,
}

/// The stream with this index (from 1).
pub fn stream(rng: &mut Rng, index: usize) -> Vec<Answered> {
    let manner = manner(rng, index);
    let scene = if manner.scene {
        Scene::new(rng)
    } else {
        Scene::default()
    };
    let mut stage = Stage {
        rng,
        manner,
        judge: Live::new(ROOM),
        draft: Draft::default(),
        open: Vec::new(),
        begun: Vec::new(),
        drains_to: None,
        scene,
        is_act: false,
    };
    let mut made: Vec<Answered> = Vec::new();
    let mut left = stage.manner.length;
    while left > 0 {
        let step = stage.next();
        let said = stage.judge.take(&step);
        match said {
            Said::Taken | Said::Yes => stage.note(step),
            Said::Refused(18) => stage.drain(),
            _ if stage.is_act => stage.scene.stop(),
            _ => {}
        }
        if said.stands() {
            left = left.min(AFTER);
        }
        made.push((step, said));
        stage.manner.calm = stage.manner.calm.saturating_sub(1);
        left -= 1;
    }
    made
}

impl Stage<'_> {
    fn next(&mut self) -> Numbers {
        let act = self.scene.next(self.rng);
        self.is_act = act.is_some();
        if let Some(act) = act {
            return self.play(act);
        }
        if self.rng.chance(self.manner.bad, 24) {
            let open: Vec<u16> = self.open.iter().map(|player| player.tx).collect();
            return bad::step(self.rng, &open, &self.begun, self.is_calm());
        }
        match self.someone() {
            Some(who) if !self.wants_more() => self.act(who),
            _ => self.begin(),
        }
    }

    fn is_calm(&self) -> bool {
        self.manner.calm > 0
    }

    fn wants_more(&mut self) -> bool {
        let surges = self.draft.steps.len() >= self.manner.surge;
        let (crowd, begins) = match (self.drains_to, surges) {
            (Some(_), _) => (ROOM, 1),
            (None, true) => (2 * ROOM, 22),
            (None, false) => (self.manner.crowd, self.manner.begins),
        };
        self.open.len() < crowd && self.rng.chance(begins, 24)
    }

    /// One is to end, or some.
    fn drain(&mut self) {
        let open = self.open.len();
        let some = self.rng.below(open.max(1));
        self.drains_to = Some(self.rng.pick(&[some, open.saturating_sub(1)]));
    }

    /// Above every number begun before, where there is one.
    fn begin(&mut self) -> Numbers {
        let last = self.begun.last().copied().unwrap_or(self.manner.above);
        let more = self.rng.between(1, self.manner.stride) as u16;
        [BEGIN, last.saturating_add(more), 0, 0]
    }

    fn play(&mut self, (kind, member, obj): Act) -> Numbers {
        if kind == BEGIN {
            return self.begin();
        }
        let tx = self.scene.number(member);
        let who = self.open.iter().position(|player| player.tx == tx);
        let from = match who {
            Some(who) if kind == READ => self.right_source(who, obj),
            _ => 0,
        };
        [kind, tx, obj, from]
    }

    /// One step of one open transaction.
    fn act(&mut self, who: usize) -> Numbers {
        let obj = self.rng.pick(&self.manner.objects);
        let calm = self.is_calm();
        let player = &mut self.open[who];
        let tx = player.tx;
        if player.left == 0 {
            return self.end(who);
        }
        player.left -= 1;
        if player.writes && self.rng.chance(self.manner.writes, 24) {
            [WRITE, tx, obj, 0]
        } else if !calm && self.rng.chance(self.manner.strays, 24) {
            player.strayed = true;
            [READ, tx, obj, self.any_source(tx, obj)]
        } else {
            [READ, tx, obj, self.right_source(who, obj)]
        }
    }

    /// One of those open; while there is room not one that only holds on, and
    /// where there is none often the one that began first.
    fn someone(&mut self) -> Option<usize> {
        let drains = self.drains_to.is_some();
        let acts = |player: &Player| {
            let only_holds = player.holds && player.left == 0;
            !player.in_scene && (drains || !only_holds)
        };
        let all = 0..self.open.len();
        let free: Vec<usize> = all.filter(|&i| acts(&self.open[i])).collect();
        match free.first() {
            Some(&first) if drains && self.rng.chance(1, 2) => Some(first),
            Some(_) => Some(self.rng.pick(&free)),
            None => None,
        }
    }

    /// Those that strayed abort more often, so that not all of them are judged.
    fn end(&mut self, who: usize) -> Numbers {
        let Player {
            tx, begin, strayed, ..
        } = self.open[who];
        let wins_first = self.manner.first_committer_wins || self.is_calm();
        let loses = wins_first && self.draft.clashes(tx, begin);
        let aborts = self.manner.aborts + if strayed { 12 } else { 0 };
        let kind = if loses || self.rng.chance(aborts, 24) {
            ABORT
        } else {
            COMMIT
        };
        [kind, tx, 0, 0]
    }

    /// What a snapshot has: the own write, or the last committed at the begin.
    fn right_source(&self, who: usize, obj: u16) -> u16 {
        let Player { tx, begin, .. } = self.open[who];
        if self.draft.wrote(tx, obj) {
            tx
        } else {
            self.draft.last_committed(obj, begin)
        }
    }

    /// Some writer of the object, the last committed now, the store, itself,
    /// one that is to begin, or anyone.
    fn any_source(&mut self, tx: u16, obj: u16) -> u16 {
        let writers = self.draft.writers(obj);
        match self.rng.below(6) {
            0 if !writers.is_empty() => self.rng.pick(&writers),
            1 => self.draft.last_committed(obj, self.draft.steps.len()),
            2 => tx,
            3 => self.begun.last().map_or(1, |last| last.saturating_add(1)),
            4 => self.rng.between(0, 65_535) as u16,
            _ => 0,
        }
    }

    /// A good step, whoever has thought of it.
    fn note(&mut self, step: Numbers) {
        let [kind, tx, ..] = step;
        self.draft.steps.push(step);
        if self.is_act {
            self.scene.go_on(tx);
        }
        match kind {
            BEGIN => self.enter(tx),
            COMMIT | ABORT => self.leave(tx),
            _ => {}
        }
    }

    fn leave(&mut self, tx: u16) {
        self.open.retain(|player| player.tx != tx);
        let open = self.open.len();
        self.drains_to = self.drains_to.filter(|&few| open > few);
    }

    fn enter(&mut self, tx: u16) {
        let alone = self.manner.one_writer || self.is_calm();
        let busy = alone && self.open.iter().any(|player| player.writes);
        let reads_only = self.rng.chance(self.manner.readers, 24);
        let touches = if self.is_calm() {
            1
        } else {
            self.manner.touches
        };
        let holding = self.open.iter().filter(|player| player.holds).count();
        let holds = holding < self.manner.holders && (holding == 0 || self.rng.chance(1, 24));
        let in_scene = self.scene.has(tx);
        self.begun.push(tx);
        self.open.push(Player {
            tx,
            begin: self.draft.steps.len(),
            left: self.rng.between(0, touches),
            writes: !(busy || reads_only || in_scene),
            strayed: false,
            holds: holds && !in_scene,
            in_scene,
        });
    }
}
