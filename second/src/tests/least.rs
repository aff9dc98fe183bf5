//! Every proposal for small logs. Those are accepted that leave a log which some
//! order explains, by replay of every order, and have no part that does.

use crate::accepts::will_do;
use crate::every::{each, Bounds};
use crate::log::{check, Log};
use crate::make::Sort;
use crate::redo::{planned, taken_back};
use crate::replay::Replay;
use crate::report::log_of;

/// The sets of a log's committed transactions, each as bits over these: whether
/// an order explains the log with the set taken back.
struct Sets {
    committed: Vec<usize>,
    explained: Vec<bool>,
}

impl Sets {
    fn of(log: &Log) -> Sets {
        let mut sets = Sets {
            committed: log.committed(),
            explained: Vec::new(),
        };
        for set in 0..1 << sets.committed.len() {
            let left = taken_back(log, &sets.members(set));
            let none = Replay::new(&left).list_by_trying(&mut |_| false);
            sets.explained.push(!none);
        }
        sets
    }

    fn members(&self, set: usize) -> Vec<usize> {
        let places = (0..self.committed.len()).filter(|place| set >> place & 1 == 1);
        places.map(|place| self.committed[place]).collect()
    }

    fn all(&self) -> std::ops::Range<usize> {
        0..self.explained.len()
    }

    /// It leaves an explained log, and no part of it does.
    fn is_least(&self, set: usize) -> bool {
        let is_part = |part: &usize| *part != set && part & set == *part;
        let mut parts = self.all().filter(is_part);
        self.explained[set] && !parts.any(|part| self.explained[part])
    }
}

/// The accepted are the least; the planner's is one of them, and where nothing
/// need be taken back there is no other. How many there are.
fn try_all(log: &Log) -> usize {
    let sets = Sets::of(log);
    for set in sets.all() {
        let members = sets.members(set);
        assert_eq!(will_do(log, &members), sets.is_least(set), "{members:?}");
    }
    let least: Vec<usize> = sets.all().filter(|&set| sets.is_least(set)).collect();
    let plan = planned(log);
    assert!(least.iter().any(|&set| sets.members(set) == plan));
    if sets.explained[0] {
        assert_eq!((&least[..], &plan[..]), (&[0][..], &[][..]));
    }
    least.len()
}

/// Small and tangled logs with at most 7 committed, of which many have several
/// that will do.
#[test]
fn made_logs() {
    let mut met = [0; 5];
    for sort in [Sort::Small, Sort::Tangled] {
        let texts = (1..=1500).map(|index| sort.text(21, index));
        let logs = texts.map(|text| log_of(&text).expect("these pass the check"));
        for log in logs.filter(|log| log.committed().len() <= 7) {
            met[try_all(&log).min(5) - 1] += 1;
        }
    }
    assert!(met.iter().all(|&count| count > 10), "{met:?}");
}

/// Every log of up to 7 steps.
#[test]
fn every_small_log() {
    let bounds = Bounds {
        steps: 7,
        transactions: 2,
        objects: 1,
    };
    let mut met = [0; 2];
    each(&bounds, &mut |run| {
        let log = check(run).expect("a log");
        met[try_all(&log) - 1] += 1;
        Ok(())
    })
    .expect("nothing is written");
    assert!(met.iter().all(|&count| count > 10), "{met:?}");
}
