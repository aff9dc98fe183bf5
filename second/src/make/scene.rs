//! A cycle that is closed slowly, over objects that no other touches: the first
//! member reads what the second then writes, each of the others reads what the
//! one before it wrote, and the last one, which sees all of them but not what
//! the first writes, is the last to commit. Once the first has committed, edges
//! alone keep those between.

use super::draft::{BEGIN, COMMIT, READ, WRITE};
use super::stream::LONGEST;
use crate::rng::Rng;

/// The lowest object of a scene.
const LOWEST: u16 = 40;

/// Kind, member and object.
pub type Act = (u16, usize, u16);

/// A scene as it is played between the steps of a stream; at first an empty one.
#[derive(Default)]
pub struct Scene {
    /// What is to come, the next one last.
    acts: Vec<Act>,
    /// The members that have begun.
    cast: Vec<u16>,
    /// So many steps before the first act, and then one of so many is an act.
    wait: usize,
    pace: usize,
}

impl Scene {
    pub fn new(rng: &mut Rng) -> Scene {
        let mut acts = acts(rng.between(3, 7));
        acts.reverse();
        Scene {
            acts,
            cast: Vec::new(),
            wait: rng.below(LONGEST / 2),
            pace: rng.pick(&[2, 4, 8, 16]),
        }
    }

    /// The next act, if it is time for it.
    pub fn next(&mut self, rng: &mut Rng) -> Option<Act> {
        let act = self.acts.last().copied()?;
        self.wait = self.wait.saturating_sub(1);
        (self.wait == 0 && rng.chance(1, self.pace)).then_some(act)
    }

    pub fn number(&self, member: usize) -> u16 {
        self.cast[member]
    }

    pub fn has(&self, tx: u16) -> bool {
        self.cast.contains(&tx)
    }

    /// The next act, a step of this transaction, was good.
    pub fn go_on(&mut self, tx: u16) {
        if let Some((BEGIN, ..)) = self.acts.pop() {
            self.cast.push(tx);
        }
    }

    pub fn stop(&mut self) {
        self.acts.clear();
    }
}

fn acts(members: usize) -> Vec<Act> {
    let last = members - 1;
    let written = |member: usize| LOWEST + member as u16;
    let mut acts = vec![(BEGIN, 0, 0), (READ, 0, written(1))];
    for member in 1..last {
        acts.push((BEGIN, member, 0));
        if member > 1 {
            acts.push((READ, member, written(member - 1)));
        }
        acts.push((WRITE, member, written(member)));
        acts.push((COMMIT, member, 0));
    }
    acts.extend([
        (BEGIN, last, 0),
        (READ, last, written(last - 1)),
        (READ, last, written(0)),
        (WRITE, 0, written(0)),
        (COMMIT, 0, 0),
        (COMMIT, last, 0),
    ]);
    acts
}
