//! The live judge: answers a stream step by step. It keeps the steps that it
//! took, and at every commit judges the whole log so far. Who is forgotten only
//! counts where a begin asks for room.

use crate::log::{begins, check_numbers, is_ended, wrote, Kind, Step};
use crate::room::Room;
use crate::so_far::{begun, SoFar};
use crate::verdicts::{snapshot, version_edges, Snapshot};

/// So many places there are: one for each that is open or kept.
pub const ROOM: usize = 128;
/// Transactions are 1 to this number, and sources 0 to it.
pub const HIGHEST: usize = 65_535;

/// The answer to one step.
#[derive(Clone, Copy, Debug, PartialEq, Eq)]
pub enum Said {
    Refused(u16),
    Taken,
    Yes,
    Breach,
    CycleClosed,
}

impl Said {
    /// The line that says it.
    pub fn line(self) -> String {
        match self {
            Said::Refused(number) => format!("refused={number}"),
            Said::Taken => "taken".to_string(),
            Said::Yes => "yes".to_string(),
            Said::Breach => "breach".to_string(),
            Said::CycleClosed => "cycle closed".to_string(),
        }
    }

    pub fn refuses(self) -> bool {
        matches!(self, Said::Refused(_))
    }

    /// Once said it is the answer to every later step.
    pub fn stands(self) -> bool {
        matches!(self, Said::Breach | Said::CycleClosed)
    }
}

pub struct Live {
    room: usize,
    /// The good steps so far.
    steps: Vec<Step>,
    standing: Option<Said>,
}

impl Live {
    /// A fresh judge with so many places.
    pub fn new(room: usize) -> Live {
        Live {
            room,
            steps: Vec::new(),
            standing: None,
        }
    }

    /// The answer to the next step. A bad step changes nothing.
    pub fn take(&mut self, numbers: &[u16]) -> Said {
        if let Some(said) = self.standing {
            return said;
        }
        let step = match self.check(numbers) {
            Ok(step) => step,
            Err(number) => return Said::Refused(number),
        };
        self.steps.push(step);
        if step.kind != Kind::Commit {
            return Said::Taken;
        }
        let said = judge(&self.steps);
        self.standing = Some(said).filter(|said| said.stands());
        said
    }

    /// The first of 3 to 6, 7, 18 and 8 that applies to the next step.
    fn check(&self, numbers: &[u16]) -> Result<Step, u16> {
        let step = check_numbers(numbers, HIGHEST)?;
        if step.kind != Kind::Begin {
            let open = begins(&self.steps, step.tx) && !is_ended(&self.steps, step.tx);
            return if open { Ok(step) } else { Err(8) };
        }
        let begun = begun(&self.steps);
        if begun.iter().any(|&earlier| step.tx <= earlier) {
            return Err(7);
        }
        // fewer than the places have begun: nobody need be forgotten
        if begun.len() >= self.room && self.in_use() >= self.room {
            return Err(18);
        }
        Ok(step)
    }

    /// The places that remain in use when nothing more can be forgotten.
    fn in_use(&self) -> usize {
        let so_far = SoFar::new(&self.steps);
        so_far.open.len() + Room::new(&so_far).kept().len()
    }
}

/// What the last commit of these steps gets where nothing stands yet.
fn judge(steps: &[Step]) -> Said {
    if has_wrong_source(steps) {
        return Said::Breach;
    }
    let log = SoFar::new(steps).log;
    if snapshot(&log) != Snapshot::Yes {
        return Said::Breach;
    }
    if version_edges(&log).has_cycle() {
        Said::CycleClosed
    } else {
        Said::Yes
    }
}

/// A read of a committed transaction has a source that would get 9 or 10.
fn has_wrong_source(steps: &[Step]) -> bool {
    let mut reads = (0..steps.len()).filter(|&k| steps[k].kind == Kind::Read);
    reads.any(|k| {
        let (read, earlier) = (&steps[k], &steps[..k]);
        let gets_9 = read.from != 0 && !wrote(earlier, read.from, read.obj);
        let gets_10 = read.from != read.tx && wrote(earlier, read.tx, read.obj);
        (gets_9 || gets_10) && is_committed(steps, read.tx)
    })
}

fn is_committed(steps: &[Step], tx: usize) -> bool {
    let mut commits = steps.iter().filter(|s| s.kind == Kind::Commit);
    commits.any(|s| s.tx == tx)
}
