//! The judge of proposals: the settled points, the numbers and their order, and
//! what a list on the command line may be.

use super::short::{log, run, text};
use crate::accepts::{accepts, judge, members, will_do, PROPOSAL};
use crate::log::Refusal;
use crate::permutations::advance;
use crate::plans::filled;

/// The proposal, the log, and the answer.
const POINTS: [(&[u16], &str, &str); 33] = [
    (&[], "", "yes"),
    (&[], "b1 w1x a1", "yes"),
    (&[], "b1 w1x c1", "yes"),
    (&[1], "b1 w1x c1", "no"),
    (&[], "b1 b2 r1y0 r2x0 w1x w2y c1 c2", "no"),
    (&[1], "b1 b2 r1y0 r2x0 w1x w2y c1 c2", "yes"),
    (&[2], "b1 b2 r1y0 r2x0 w1x w2y c1 c2", "yes"),
    (&[1, 2], "b1 b2 r1y0 r2x0 w1x w2y c1 c2", "no"),
    (&[2, 1], "b1 w1x b2 r2x1 w2y r1y2 c1 c2", "yes"),
    (&[1], "b1 w1x b2 r2x1 w2y r1y2 c1 c2", "no"),
    (&[1], "b1 w1x b2 r2x1 c1 c2", "no"),
    (&[1, 2], "b1 w1x b2 r2x1 c1 c2", "no"),
    (&[1], "b1 w1x b2 r2x1 c2 a1", "19 at 0"),
    (&[2], "b1 w1x b2 r2x1 c2 a1", "yes"),
    (&[], "b1 w1x b2 r2x1 c2 a1", "no"),
    (&[1], "b1 w1x r1x0 c1", "yes"),
    (&[], "b1 w1x r1x0 c1", "no"),
    (&[1], "b1 w1x r1x0 a1", "19 at 0"),
    (&[2], "b1 w1x b2 r2x1 w1x c1 c2", "yes"),
    (&[1], "b1 w1x b2 r2x1 w1x c1 c2", "no"),
    (&[3], "b1 c1", "19 at 0"),
    (&[129], "b1 c1", "19 at 0"),
    (&[200], "b1 c1", "19 at 0"),
    (&[257], "b1 c1", "19 at 0"),
    (&[65535], "b1 c1", "19 at 0"),
    (&[1, 1], "b1 c1", "19 at 0"),
    (&[0, 1], "b1 c1", "19 at 0"),
    (&[2, 0, 1], "b1 c1 b2 c2", "19 at 0"),
    (&[1], "b1", "11 at 1"),
    (&[7, 7, 0, 7], "b1 r1x2 c1", "9 at 1"),
    // without 1 the version after the one that 3 reads is that of 2
    (&[1], "b1 b2 b3 r3x0 w1x c1 w2x w2y c2 r3y2 c3", "no"),
    (&[3], "b1 b2 b3 r3x0 w1x c1 w2x w2y c2 r3y2 c3", "yes"),
    // fewer than the planner brings
    (
        &[1],
        "b1 b2 b3 r1y0 r2x0 r1z0 r3x0 w1x w2y w3z c1 c2 c3",
        "yes",
    ),
];

/// What the judge says to a proposal with zeros behind it.
fn answer(proposal: &[u16], run: &[u16]) -> String {
    words(judge(run, &filled(proposal.to_vec())))
}

fn words(said: Result<bool, Refusal>) -> String {
    match said {
        Ok(true) => "yes".to_string(),
        Ok(false) => "no".to_string(),
        Err(Refusal { number, place }) => format!("{number} at {place}"),
    }
}

#[test]
fn points() {
    for (proposal, short, said) in POINTS {
        let asked = answer(proposal, &run(short));
        assert_eq!(asked, said, "{proposal:?} {short}");
    }
}

/// 12 comes before the numbers of the log, and they come before 19.
#[test]
fn the_first_number_counts() {
    let runs = [run("b1 c1"), run("b1"), vec![1], vec![0; 4100], vec![9; 4]];
    let numbers = ["19 at 0", "11 at 1", "1 at 0", "2 at 0", "3 at 0"];
    for (run, number) in runs.iter().zip(numbers) {
        for length in [0, 1, 64, PROPOSAL - 1, PROPOSAL + 1, 2 * PROPOSAL] {
            assert_eq!(words(judge(run, &vec![0; length])), "12 at 0");
        }
        assert_eq!(answer(&[1, 1], run), number);
        assert_eq!(words(judge(run, &[9; PROPOSAL])), number);
    }
}

/// 128 members without a zero: each misses its own write.
#[test]
fn all_128() {
    let each = |tx: u16| format!("b{tx} w{tx}x r{tx}x0 c{tx} ");
    let run = run(&(1..=128).map(each).collect::<String>());
    let all: Vec<u16> = (1..=128).collect();
    let falling: Vec<u16> = (1..=128).rev().collect();
    assert_eq!(answer(&all, &run), "yes");
    assert_eq!(answer(&falling, &run), "yes");
    assert_eq!(answer(&all[1..], &run), "no");
    assert_eq!(answer(&[&all[1..], &[5]].concat(), &run), "19 at 0");
    assert_eq!(answer(&[&all[1..], &[129]].concat(), &run), "19 at 0");
}

#[test]
fn lists() {
    assert_eq!(members("-"), Some(vec![]));
    assert_eq!(members("2,5"), Some(vec![2, 5]));
    assert_eq!(members("128,1,1"), Some(vec![128, 1, 1]));
    for list in [
        "", "0", "129", "--", "-1", "1,-", "-,1", "1,", "1,0", " -", "1 2",
    ] {
        assert_eq!(members(list), None, "{list}");
    }
}

#[test]
fn lines() {
    let skew = text("b1 b2 r1y0 r2x0 w1x w2y c1 c2");
    for (list, line) in [
        ("-", "no\n"),
        ("1", "yes\n"),
        ("2,1", "no\n"),
        ("1,1", "refused=19 at=0\n"),
        ("3", "refused=19 at=0\n"),
    ] {
        let members = members(list).expect("a list");
        assert_eq!(accepts(&members, &skew), line, "{list}");
    }
    assert_eq!(accepts(&[1, 1], b"steps=0"), "refused=16 at=0\n");
    assert_eq!(accepts(&[1, 1], b"steps=1025\n"), "refused=2 at=0\n");
    assert_eq!(accepts(&[1, 1], &text("b1")), "refused=11 at=1\n");
    assert_eq!(accepts(&[], b"steps=0\n"), "yes\n");
    // more than 128 name one twice
    let all: String = (1..=128).map(|tx| format!("b{tx} c{tx} ")).collect();
    let many: Vec<u16> = (1..=128).chain([1]).collect();
    assert_eq!(accepts(&many, &text(&all)), "refused=19 at=0\n");
}

/// In any order the members are judged alike.
#[test]
fn any_order() {
    let short = "b1 b2 b3 r1y0 r2x0 r1z0 r3x0 w1x w2y w3z c1 c2 c3";
    for (all, will) in [(vec![2, 3], true), (vec![1, 2, 3], false)] {
        let mut members = all;
        loop {
            assert_eq!(will_do(&log(short), &members), will, "{members:?}");
            if !advance(&mut members) {
                break;
            }
        }
    }
}
