//! Sequences of different numbers in dictionary order (numbers compared as
//! numbers).

/// Turns the sequence into the following one of the same numbers; false, and
/// unchanged, if it is the last.
pub fn advance(sequence: &mut [usize]) -> bool {
    let length = sequence.len();
    let Some(rise) = (1..length).rev().find(|&i| sequence[i - 1] < sequence[i]) else {
        return false;
    };
    let pivot = rise - 1;
    let larger = (rise..length)
        .rev()
        .find(|&i| sequence[i] > sequence[pivot]);
    sequence.swap(pivot, larger.expect("the one at the rise is larger"));
    sequence[rise..].reverse();
    true
}

/// Like `advance`, leaving out all that begin alike up to and with this place.
pub fn advance_past(sequence: &mut [usize], place: usize) -> bool {
    sequence[place + 1..].sort_by(|a, b| b.cmp(a));
    advance(sequence)
}
