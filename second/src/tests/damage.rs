//! The numbers 1 to 8 of the check, and which comes first.

use super::short::checked;

#[test]
fn lengths() {
    for extra in [1, 2, 3, 4097] {
        assert_eq!(checked(&vec![0; extra]), "1 at 0");
    }
    assert_eq!(checked(&vec![0; 4 * 1025]), "2 at 0");
    assert_eq!(checked(&vec![0; 4 * 1025 + 1]), "1 at 0");
    assert_eq!(checked(&[]), "ok");
}

const STEPS: [([u16; 4], &str); 22] = [
    ([0, 1, 0, 0], "3 at 0"),
    ([6, 0, 64, 129], "3 at 0"),
    ([65535, 1, 0, 0], "3 at 0"),
    ([1, 0, 0, 0], "4 at 0"),
    ([1, 129, 1, 1], "4 at 0"),
    ([2, 129, 64, 129], "4 at 0"),
    ([1, 128, 0, 0], "11 at 128"),
    ([1, 1, 1, 0], "5 at 0"),
    ([4, 1, 1, 1], "5 at 0"),
    ([5, 1, 63, 0], "5 at 0"),
    ([2, 1, 64, 129], "5 at 0"),
    ([3, 1, 64, 1], "5 at 0"),
    ([1, 1, 0, 1], "6 at 0"),
    ([2, 1, 63, 129], "6 at 0"),
    ([3, 1, 63, 1], "6 at 0"),
    ([4, 1, 0, 128], "6 at 0"),
    ([5, 1, 0, 65535], "6 at 0"),
    ([2, 1, 63, 128], "8 at 0"),
    ([2, 1, 0, 0], "8 at 0"),
    ([3, 1, 63, 0], "8 at 0"),
    ([4, 1, 0, 0], "8 at 0"),
    ([5, 1, 0, 0], "8 at 0"),
];

#[test]
fn single_steps() {
    for (step, answer) in STEPS {
        assert_eq!(checked(&step), answer, "{step:?}");
    }
}

/// All of 3 to 9 on one step before the following step.
#[test]
fn step_by_step() {
    assert_eq!(checked(&[1, 1, 0, 0, 1, 1, 0, 0, 9, 1, 0, 0]), "7 at 1");
    assert_eq!(checked(&[1, 1, 0, 0, 9, 1, 0, 0, 1, 1, 0, 0]), "3 at 1");
    assert_eq!(checked(&[1, 1, 0, 0, 1, 1, 0, 1]), "6 at 1");
}
