//! The worked sheets leave what was worked out by hand: until and since, two sheets of
//! which the second has samples raised, and example A with corrections.

mod common;

use common::*;
use reference::judge::Outcome;
use reference::words::{self, kinds};
use reference::worked::{AFTER_RAISING, A_CORRECTED, BEFORE_RAISING, SINCE, UNTIL};

/// Line 2 begins with sample 0.
const ANSWER_OF_UNTIL: [u32; 14] = [
    0xD0103004, 0xE0000004, 0x90000005, 0x90000004, 0x90000002, 0x90000003, 0xE0000004, 0xAFFFFFFD,
    0x90000006, 0x90000001, 0x90000009, 0xE0000001, 0x90000004, 0xF000000D,
];

/// Line 2 begins with sample 3.
const ANSWER_OF_SINCE: [u32; 14] = [
    0xD0103004, 0xE0000004, 0x90000003, 0x90000002, 0x90000004, 0x90000005, 0xE0000004, 0x90000009,
    0x90000001, 0x90000006, 0xAFFFFFFD, 0xE0003001, 0x90000004, 0xF000000D,
];

/// Line 0 has two samples, line 1 one, lines 2 and 3 two, at two places each.
const ANSWER_BEFORE_RAISING: [u32; 20] = [
    0xD0204002, 0xE0000002, 0x90000001, 0xAFFFFFFE, 0x90000000, 0x90000003, 0xE0000001, 0x90000000,
    0xAFFFFFFE, 0xE0000002, 0xAFFFFFFE, 0xAFFFFFFE, 0x90000000, 0x90000000, 0xE0000002, 0xAFFFFFFE,
    0xAFFFFFFE, 0x90000000, 0x90000000, 0xF0000013,
];

const ANSWER_AFTER_RAISING: [u32; 20] = [
    0xD0204002, 0xE0000002, 0x90000001, 0x90000000, 0x90000002, 0x90000003, 0xE0000001, 0x90000001,
    0x90000000, 0xE0000002, 0x90000000, 0x90000000, 0x90000002, 0x90000002, 0xE0000002, 0x90000000,
    0x90000000, 0x90000002, 0x90000002, 0xF0000013,
];

/// Place 1 has 3 in place of -2 at sample 0, and place 0 has -8 in place of 1 at sample 1.
const ANSWER_OF_A_CORRECTED: [u32; 20] = [
    0xD0204002, 0xE0000002, 0x90000005, 0x90000003, 0xAFFFFFF8, 0x90000004, 0xE0000001, 0x90000005,
    0x90000004, 0xE0000002, 0x90000003, 0x90000005, 0x90000004, 0xAFFFFFF8, 0xE0000002, 0x90000003,
    0x90000005, 0x90000004, 0xAFFFFFF8, 0xF0000013,
];

fn assert_leaves(sheet: &[u32], answer: &[u32], rounds: u64, yes: u64) {
    let left = judged_words(sheet);
    assert_eq!(answer_words(&left)[..answer.len()], *answer);
    assert!(answer_words(&left)[answer.len()..].iter().all(|&word| word == 0));
    let words = answer.len() as u64;
    assert_eq!(outcome(&left), Outcome { words, rounds, yes, ..Outcome::default() });
}

#[test]
fn until_says_yes_4_at_its_first_sample() {
    assert_leaves(&UNTIL, &ANSWER_OF_UNTIL, 0, 8);
}

#[test]
fn since_says_yes_4_at_its_last_sample() {
    assert_leaves(&SINCE, &ANSWER_OF_SINCE, 0, 8);
}

/// The sheet with the lower and the upper bound of its last line replaced.
fn bounded(sheet: &[u32], lower: u32, upper: u32) -> Vec<u32> {
    let mut sheet = sheet.to_vec();
    sheet[14] = 0x6000_0000 | lower;
    sheet[15] = 0x7000_0000 | upper;
    sheet
}

/// What the window says if it is cut at each of its samples.
#[test]
fn windows_that_are_cut_sooner() {
    let ahead = |lower, upper| last_of(&bounded(&UNTIL, lower, upper)).verdicts[0];
    let back = |lower, upper| {
        let line = last_of(&bounded(&SINCE, lower, upper));
        *line.verdicts.last().expect("a verdict")
    };
    for cut in [(1, 1), (1, 2), (1, 3)] {
        assert_eq!([ahead(cut.0, cut.1), back(cut.0, cut.1)], [yes(4); 2]);
    }
    // From the third sample on left is 2; alone the third offers 1 and the last 2.
    for (at, offered) in [(0, no(-3)), (2, yes(1)), (3, yes(2))] {
        assert_eq!([ahead(at, at), back(at, at)], [offered; 2]);
    }
}

#[test]
fn before_raising_8_of_14_are_yes() {
    assert_leaves(&BEFORE_RAISING, &ANSWER_BEFORE_RAISING, 2, 8);
}

#[test]
fn after_raising_all_14_are_yes() {
    assert_leaves(&AFTER_RAISING, &ANSWER_AFTER_RAISING, 2, 14);
}

#[test]
fn example_a_corrected_has_11_yeses_as_before() {
    assert_leaves(&A_CORRECTED, &ANSWER_OF_A_CORRECTED, 1, 11);
}

/// Samples alone differ, and none is lower.
#[test]
fn raising_raises_samples_and_nothing_else() {
    for (&before, &after) in BEFORE_RAISING.iter().zip(&AFTER_RAISING) {
        let is_sample = [before, after].map(words::kind) == [kinds::SAMPLE; 2];
        assert!(before == after || is_sample && words::signed27(before) < words::signed27(after));
    }
}
