//! A log while it is being made, damaged or not, and its text.

use crate::text::WORDS;

pub const BEGIN: u16 = 1;
pub const READ: u16 = 2;
pub const WRITE: u16 = 3;
pub const COMMIT: u16 = 4;
pub const ABORT: u16 = 5;

/// Kind, transaction, object, source.
pub type Numbers = [u16; 4];

#[derive(Clone, Default)]
pub struct Draft {
    pub steps: Vec<Numbers>,
}

impl Draft {
    pub fn begin(&mut self, tx: u16) {
        self.steps.push([BEGIN, tx, 0, 0]);
    }

    pub fn read(&mut self, tx: u16, obj: u16, from: u16) {
        self.steps.push([READ, tx, obj, from]);
    }

    pub fn write(&mut self, tx: u16, obj: u16) {
        self.steps.push([WRITE, tx, obj, 0]);
    }

    pub fn commit(&mut self, tx: u16) {
        self.steps.push([COMMIT, tx, 0, 0]);
    }

    pub fn abort(&mut self, tx: u16) {
        self.steps.push([ABORT, tx, 0, 0]);
    }

    /// The writers of an object in the order of their write steps.
    pub fn writers(&self, obj: u16) -> Vec<u16> {
        let writes = self.steps.iter().filter(|s| s[0] == WRITE && s[2] == obj);
        writes.map(|s| s[1]).collect()
    }

    pub fn wrote(&self, tx: u16, obj: u16) -> bool {
        self.steps.contains(&[WRITE, tx, obj, 0])
    }

    /// The last to commit before step k among the writers of an object, or 0.
    pub fn last_committed(&self, obj: u16, k: usize) -> u16 {
        let commits = self.steps[..k].iter().rev().filter(|s| s[0] == COMMIT);
        commits
            .map(|s| s[1])
            .find(|&tx| self.wrote(tx, obj))
            .unwrap_or(0)
    }

    /// One that committed since step k wrote an object that this one wrote.
    pub fn clashes(&self, tx: u16, k: usize) -> bool {
        let mut commits = self.steps[k..].iter().filter(|s| s[0] == COMMIT);
        commits.any(|commit| {
            let writes = |s: &&Numbers| s[0] == WRITE && s[1] == commit[1];
            let mut written = self.steps.iter().filter(writes);
            written.any(|s| self.wrote(tx, s[2]))
        })
    }

    /// The text of the log: the header and a line for each step.
    pub fn text(&self) -> Vec<u8> {
        let mut text = format!("steps={}\n", self.steps.len());
        for step in &self.steps {
            text.push_str(&line(step));
            text.push('\n');
        }
        text.into_bytes()
    }
}

/// The line of a step with a kind 1..5, without its LF.
pub fn line(step: &Numbers) -> String {
    let word = WORDS[step[0] as usize - 1];
    format!("op={word} tx={} obj={} from={}", step[1], step[2], step[3])
}
