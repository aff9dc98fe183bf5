//! The log: its steps, the numbers 1 to 11 that turn a run away, and who did
//! what in a log that passes. The live judge checks its steps with the same words.

/// A log has at most this many steps.
pub const STEPS: usize = 1024;
/// Transactions are 1 to this number.
pub const TRANSACTIONS: usize = 128;
/// Objects are 0 to one less than this number.
pub const OBJECTS: usize = 64;

/// A number that turns a call away, with its place.
#[derive(Clone, Copy, Debug, PartialEq, Eq)]
pub struct Refusal {
    pub number: u16,
    pub place: usize,
}

/// Short for a refused call.
pub fn refuse<T>(number: u16, place: usize) -> Result<T, Refusal> {
    Err(Refusal { number, place })
}

#[derive(Clone, Copy, Debug, PartialEq, Eq)]
pub enum Kind {
    Begin,
    Read,
    Write,
    Commit,
    Abort,
}

impl Kind {
    fn of(number: u16) -> Option<Kind> {
        match number {
            1 => Some(Kind::Begin),
            2 => Some(Kind::Read),
            3 => Some(Kind::Write),
            4 => Some(Kind::Commit),
            5 => Some(Kind::Abort),
            _ => None,
        }
    }

    pub fn ends(self) -> bool {
        matches!(self, Kind::Commit | Kind::Abort)
    }
}

#[derive(Clone, Copy, Debug, PartialEq, Eq)]
pub struct Step {
    pub kind: Kind,
    pub tx: usize,
    pub obj: usize,
    pub from: usize,
}

impl Step {
    /// A read or a write.
    pub fn touches(&self) -> bool {
        matches!(self.kind, Kind::Read | Kind::Write)
    }

    fn writes(&self, tx: usize, obj: usize) -> bool {
        self.kind == Kind::Write && self.tx == tx && self.obj == obj
    }
}

/// The log of a run of numbers, or the first of 1 to 11 that applies.
pub fn check(run: &[u16]) -> Result<Log, Refusal> {
    if run.len() % 4 != 0 {
        return refuse(1, 0);
    }
    if run.len() / 4 > STEPS {
        return refuse(2, 0);
    }
    let mut steps = Vec::new();
    for (place, numbers) in run.chunks(4).enumerate() {
        match check_step(&steps, numbers) {
            Ok(step) => steps.push(step),
            Err(number) => return refuse(number, place),
        }
    }
    match lowest_not_ended(&steps) {
        Some(tx) => refuse(11, tx),
        None => Ok(Log::new(steps)),
    }
}

/// The step with these numbers after the earlier ones, or the first of 3 to
/// 9 that applies to it.
fn check_step(earlier: &[Step], numbers: &[u16]) -> Result<Step, u16> {
    let step = check_numbers(numbers, TRANSACTIONS)?;
    let begun = begins(earlier, step.tx);
    if step.kind == Kind::Begin && begun {
        return Err(7);
    }
    if step.kind != Kind::Begin && (!begun || is_ended(earlier, step.tx)) {
        return Err(8);
    }
    if step.kind == Kind::Read && step.from != 0 && !wrote(earlier, step.from, step.obj) {
        return Err(9);
    }
    Ok(step)
}

/// 3 to 6: what the table says of one step's own numbers, with transactions and
/// sources up to the highest.
pub fn check_numbers(numbers: &[u16], highest: usize) -> Result<Step, u16> {
    let kind = Kind::of(numbers[0]).ok_or(3u16)?;
    let (tx, obj, from) = (
        numbers[1] as usize,
        numbers[2] as usize,
        numbers[3] as usize,
    );
    if !(1..=highest).contains(&tx) {
        return Err(4);
    }
    let object_fits = match kind {
        Kind::Read | Kind::Write => obj < OBJECTS,
        Kind::Begin | Kind::Commit | Kind::Abort => obj == 0,
    };
    if !object_fits {
        return Err(5);
    }
    let source_fits = match kind {
        Kind::Read => from <= highest,
        _ => from == 0,
    };
    if !source_fits {
        return Err(6);
    }
    Ok(Step {
        kind,
        tx,
        obj,
        from,
    })
}

pub fn begins(steps: &[Step], tx: usize) -> bool {
    steps.iter().any(|s| s.kind == Kind::Begin && s.tx == tx)
}

pub fn is_ended(steps: &[Step], tx: usize) -> bool {
    steps.iter().any(|s| s.kind.ends() && s.tx == tx)
}

pub fn wrote(steps: &[Step], tx: usize, obj: usize) -> bool {
    steps.iter().any(|s| s.writes(tx, obj))
}

fn lowest_not_ended(steps: &[Step]) -> Option<usize> {
    (1..=TRANSACTIONS).find(|&tx| begins(steps, tx) && !is_ended(steps, tx))
}

/// A log to which none of 1 to 11 applies, or the live judge's log so far.
pub struct Log {
    pub steps: Vec<Step>,
    begin: Vec<Option<usize>>,
    commit: Vec<Option<usize>>,
    writes: Vec<[bool; OBJECTS]>,
    committed_writers: Vec<Vec<usize>>,
}

impl Log {
    pub fn new(steps: Vec<Step>) -> Log {
        let highest = steps.iter().map(|step| step.tx).max().unwrap_or(0);
        let mut begin = vec![None; highest + 1];
        let mut commit = vec![None; highest + 1];
        let mut writes = vec![[false; OBJECTS]; highest + 1];
        for (k, step) in steps.iter().enumerate() {
            match step.kind {
                Kind::Begin => begin[step.tx] = Some(k),
                Kind::Commit => commit[step.tx] = Some(k),
                Kind::Write => writes[step.tx][step.obj] = true,
                Kind::Read | Kind::Abort => {}
            }
        }
        let commits = steps.iter().filter(|step| step.kind == Kind::Commit);
        let by_commit: Vec<usize> = commits.map(|step| step.tx).collect();
        let writers = |obj: usize| {
            by_commit
                .iter()
                .copied()
                .filter(|&tx| writes[tx][obj])
                .collect()
        };
        Log {
            committed_writers: (0..OBJECTS).map(writers).collect(),
            steps,
            begin,
            commit,
            writes,
        }
    }

    /// The committed transactions, lowest first.
    pub fn committed(&self) -> Vec<usize> {
        let all = 1..self.commit.len();
        all.filter(|&tx| self.is_committed(tx)).collect()
    }

    pub fn is_committed(&self, tx: usize) -> bool {
        self.commit[tx].is_some()
    }

    /// The begin step of a transaction that begins.
    pub fn begin_of(&self, tx: usize) -> usize {
        self.begin[tx].expect("the transaction begins")
    }

    /// The commit step of a committed transaction.
    pub fn commit_of(&self, tx: usize) -> usize {
        self.commit[tx].expect("the transaction commits")
    }

    /// The transaction writes the object in some step.
    pub fn writes(&self, tx: usize, obj: usize) -> bool {
        self.writes[tx][obj]
    }

    /// The transaction writes the object in a step earlier than step k.
    pub fn wrote(&self, tx: usize, obj: usize, k: usize) -> bool {
        wrote(&self.steps[..k], tx, obj)
    }

    /// The transaction writes the object in a step later than step k.
    pub fn writes_later(&self, tx: usize, obj: usize, k: usize) -> bool {
        self.steps[k + 1..].iter().any(|s| s.writes(tx, obj))
    }

    /// The committed writers of an object in commit order.
    pub fn committed_writers(&self, obj: usize) -> &[usize] {
        &self.committed_writers[obj]
    }

    /// The reads of committed transactions, own reads too, with their steps.
    pub fn judged_reads(&self) -> Vec<(usize, Step)> {
        let all = self.steps.iter().copied().enumerate();
        all.filter(|(_, s)| s.kind == Kind::Read && self.is_committed(s.tx))
            .collect()
    }

    /// The judged reads whose source is not the reader.
    pub fn judged_reads_from_another(&self) -> Vec<(usize, Step)> {
        let mut reads = self.judged_reads();
        reads.retain(|(_, s)| s.from != s.tx);
        reads
    }
}
