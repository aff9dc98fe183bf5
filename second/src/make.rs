//! Makes texts of six kinds: small logs, damaged logs, damaged texts, logs at
//! the limits, streams to be watched, and logs with commits to redo. Streams of
//! numbers, too.

mod bad;
mod damaged;
pub mod draft;
mod limits;
mod lines;
mod manner;
mod play;
mod scene;
mod small;
mod stream;
mod tangled;
mod texts;

use crate::rng::Rng;
pub use stream::Answered;

/// Each has a salt of its own for the seed.
#[derive(Clone, Copy, Debug, PartialEq, Eq)]
pub enum Sort {
    Small = 1,
    Damaged = 2,
    Texts = 3,
    Limits = 4,
    Live = 5,
    Tangled = 7,
}

/// The salt for streams of numbers.
const STREAMS: u64 = 6;

pub const SORTS: [Sort; 6] = [
    Sort::Small,
    Sort::Damaged,
    Sort::Texts,
    Sort::Limits,
    Sort::Live,
    Sort::Tangled,
];

impl Sort {
    pub fn name(self) -> &'static str {
        match self {
            Sort::Small => "small",
            Sort::Damaged => "damaged",
            Sort::Texts => "texts",
            Sort::Limits => "limits",
            Sort::Live => "live",
            Sort::Tangled => "tangled",
        }
    }

    pub fn named(name: &str) -> Option<Sort> {
        SORTS.into_iter().find(|sort| sort.name() == name)
    }

    /// The text with this index (from 1) of a seed.
    pub fn text(self, seed: u64, index: usize) -> Vec<u8> {
        let rng = &mut Rng::new(seed, self as u64, index as u64);
        match self {
            Sort::Small => small::draft(rng).text(),
            Sort::Damaged => damaged::draft(rng, index).text(),
            Sort::Texts => texts::text(rng, index),
            Sort::Limits => limits::text(rng, index),
            Sort::Live => lines::text(rng, index),
            Sort::Tangled => tangled::draft(rng, index).text(),
        }
    }
}

/// The stream of numbers with this index (from 1) of a seed, with its answers.
pub fn stream_of(seed: u64, index: usize) -> Vec<Answered> {
    stream::stream(&mut Rng::new(seed, STREAMS, index as u64), index)
}
