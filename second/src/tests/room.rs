//! Room given back: 18 apart the answers are those of a judge with room for all,
//! one set is kept whatever the order, and each condition is needed.

use super::short::run;
use crate::forgetful::{good_steps, misses_cycle, EDGES_ALONE, OVERLAPS_ALONE};
use crate::live::{Live, Said, ROOM};
use crate::log::{Kind, Step};
use crate::make::{stream_of, Answered};
use crate::rng::Rng;
use crate::room::{Room, Rule, BOTH};
use crate::so_far::SoFar;

/// More than any stream has transactions.
const FOR_ALL: usize = 1000;

fn answers(room: usize, steps: &[[u16; 4]]) -> Vec<Answered> {
    let mut judge = Live::new(room);
    let answered = steps.iter().map(|step| (*step, judge.take(step)));
    answered.collect()
}

/// With so many places, the answers but 18 are those of a judge with room for
/// all to the same steps without those that 18 refused. How many those are.
fn agrees(room: usize, steps: &[[u16; 4]]) -> usize {
    let mut taken = answers(room, steps);
    taken.retain(|(_, said)| *said != Said::Refused(18));
    let rest: Vec<[u16; 4]> = taken.iter().map(|(step, _)| *step).collect();
    assert_eq!(answers(FOR_ALL, &rest), taken, "{room} places");
    steps.len() - rest.len()
}

#[test]
fn eighteen_apart() {
    let mut refused = 0;
    for index in 1..=60 {
        let stream = stream_of(5, index);
        let steps: Vec<[u16; 4]> = stream.iter().map(|(step, _)| *step).collect();
        let short = &steps[..steps.len().min(120)];
        refused += (1..=6).map(|room| agrees(room, short)).sum::<usize>();
        refused += agrees(ROOM, &steps);
    }
    assert!(refused > 500, "{refused}");
}

/// For each good step of a stream until something stands, the log with it.
fn logs_so_far(stream: &[Answered], mut look: impl FnMut(&SoFar, Step)) {
    let good = good_steps(stream);
    let steps: Vec<Step> = good.iter().map(|(step, _)| *step).collect();
    for k in (0..good.len()).filter(|&k| !good[k].1.stands()) {
        look(&SoFar::new(&steps[..=k]), steps[k]);
    }
}

#[test]
fn any_order_of_forgetting() {
    let rng = &mut Rng::new(1, 300, 0);
    let mut partly = 0;
    for index in 1..=60 {
        logs_so_far(&stream_of(6, index), |so_far, step| {
            if !step.kind.ends() {
                return;
            }
            let room = Room::new(so_far);
            let mut kept = so_far.log.committed();
            let all = kept.len();
            rng.shuffle(&mut kept);
            room.forget(BOTH, &mut kept);
            kept.sort();
            assert_eq!(kept, room.kept());
            partly += usize::from(!kept.is_empty() && kept.len() < all);
        });
    }
    assert!(partly > 500, "{partly}");
}

/// Those are kept to which edges lead from one that overlaps an open one, and
/// that one itself.
#[test]
fn what_is_kept_is_reached() {
    for index in 1..=60 {
        logs_so_far(&stream_of(7, index), |so_far, _| {
            let room = Room::new(so_far);
            let all = so_far.log.committed();
            let mut reached = all.clone();
            reached.retain(|&tx| room.is_overlapped(tx));
            let mut next = 0;
            while let Some(&from) = reached.get(next) {
                let fresh = |to: &&usize| room.leads(from, **to) && !reached.contains(to);
                let more: Vec<usize> = all.iter().filter(fresh).copied().collect();
                reached.extend(more);
                next += 1;
            }
            reached.sort();
            assert_eq!(reached, room.kept());
            assert!(!so_far.open.is_empty() || reached.is_empty());
        });
    }
}

/// Who forgets at once, at every end, keeps what one keeps who forgets later.
#[test]
fn whenever_it_is_forgotten() {
    for index in 1..=60 {
        let mut kept = Vec::new();
        logs_so_far(&stream_of(8, index), |so_far, step| {
            if step.kind == Kind::Commit {
                kept.extend(so_far.number(step.tx));
            }
            let room = Room::new(so_far);
            room.forget(BOTH, &mut kept);
            kept.sort();
            assert_eq!(kept, room.kept());
        });
    }
}

/// How many of the cycles that these streams close are missed.
fn missed(rule: Rule, streams: &[Vec<Answered>]) -> usize {
    let misses = |stream: &&Vec<Answered>| misses_cycle(rule, stream);
    streams.iter().filter(misses).count()
}

#[test]
fn each_condition_is_needed() {
    let streams: Vec<Vec<Answered>> = (1..=240).map(|index| stream_of(9, index)).collect();
    let closes = |stream: &&Vec<Answered>| stream.iter().any(|a| a.1 == Said::CycleClosed);
    assert!(streams.iter().filter(closes).count() > 30);
    assert_eq!(missed(BOTH, &streams), 0);
    assert!(missed(OVERLAPS_ALONE, &streams) > 5);
    assert!(missed(EDGES_ALONE, &streams) > 5);
}

/// An edge keeps 2 when 1 has ended, and 1, which is open, keeps it before.
#[test]
fn the_read_only_anomaly() {
    let run = run("b1 r1y0 b2 w2y c2 b3 r3y2 r3x0 w1x c1 c3");
    let steps: Vec<[u16; 4]> = run.chunks(4).map(|s| [s[0], s[1], s[2], s[3]]).collect();
    let stream = answers(ROOM, &steps);
    assert_eq!(stream.last().map(|a| a.1), Some(Said::CycleClosed));
    assert!(!misses_cycle(BOTH, &stream));
    assert!(misses_cycle(OVERLAPS_ALONE, &stream));
    assert!(misses_cycle(EDGES_ALONE, &stream));
}
