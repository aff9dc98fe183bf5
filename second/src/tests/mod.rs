//! Tests: the paper's samples, the settled points, brute force against the
//! plain algorithms, the live judge and its room, the planner and the judge of
//! proposals, and what the made texts reach.

mod accepts;
mod agreement;
mod damage;
mod every;
mod graphs;
mod least;
mod live;
mod made;
mod points;
mod reasons;
mod redo;
mod room;
mod samples;
mod short;
mod texts;
mod write;
