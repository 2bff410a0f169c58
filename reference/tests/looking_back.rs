//! Since, once and historically: what they say, worked out by hand.

mod common;

use common::*;
use reference::builder::SheetBuilder;
use reference::fast::Fast;
use reference::judge::Outcome;
use reference::lookup::lookup;
use reference::margin::Verdict;
use reference::meaning::Meaning;
use reference::print::print;
use reference::words;

/// The answer to the example: once 1..2, historically 1..2, since 0..1 of the
/// line by itself, over 3, -1, 4, 5.
const ANSWER: [u32; 17] = [
    0xD0104004, 0xE0000004, 0x90000003, 0xAFFFFFFF, 0x90000004, 0x90000005, 0xE0002002, 0x90000003,
    0x90000004, 0xE0002002, 0xAFFFFFFF, 0xAFFFFFFF, 0xE0001003, 0xAFFFFFFF, 0x90000004, 0x90000005,
    0xF0000010,
];

const TEXT: &str = "\
accepted 17 0 7
0 0 yes 3
0 1 no -1
0 2 yes 4
0 3 yes 5
1 2 yes 3
1 3 yes 4
2 2 no -1
2 3 no -1
3 1 no -1
3 2 yes 4
3 3 yes 5
end 11
";

#[test]
fn the_example_leaves_its_answer() {
    let left = judged_words(&LOOKING_BACK);
    assert_eq!(answer_words(&left)[..17], ANSWER);
    assert!(answer_words(&left)[17..].iter().all(|&word| word == 0));
    assert_eq!(outcome(&left), Outcome { words: 17, yes: 7, ..Outcome::default() });
}

/// The file that hosts are tried on.
#[test]
fn the_example_as_a_file() {
    let file = include_bytes!("../examples/looking_back.sheet");
    assert_eq!(file[..], words::to_bytes(&LOOKING_BACK));
}

#[test]
fn printed_rows_keep_the_recordings_samples() {
    let input = words::to_bytes(&LOOKING_BACK);
    assert_eq!(print::<Meaning>(&input), TEXT);
    assert_eq!(print::<Fast>(&input), TEXT);
}

/// Line 0 has samples 0 to 3, lines 1 and 2 have 2 and 3, line 3 has 1 to 3.
#[test]
fn lookups_keep_the_recordings_samples() {
    let answer = words::to_bytes(&ANSWER);
    let line = |line: u64| [0, 1, 2, 3, 4].map(|sample| lookup(&answer, line, sample, 0));
    assert_eq!(line(0), [1, 2, 1, 1, 0]);
    assert_eq!(line(1), [0, 0, 1, 1, 0]);
    assert_eq!(line(2), [0, 0, 2, 2, 0]);
    assert_eq!(line(3), [0, 2, 1, 1, 0]);
}

/// One place whose two signals are those of lines 0 and 1, at least 0.
fn two_signals(left: &[i32], right: &[i32]) -> SheetBuilder {
    let numbers: Vec<i32> = left.iter().zip(right).flat_map(|pair| [*pair.0, *pair.1]).collect();
    let sheet = SheetBuilder::new(1, 2, left.len() as u32).samples(&numbers);
    sheet.at_least(0, 0).at_least(1, 0)
}

/// The first sample and the verdicts of line 0 since line 1.
fn since(left: &[i32], right: &[i32], bounds: (u32, u32)) -> (usize, Vec<Verdict>) {
    let line = last_of(&two_signals(left, right).bounded(12, 0, 1, bounds).end());
    (line.first, line.verdicts)
}

/// At 2 the best t' is 1: left has been at least 5 from there on, and right was
/// 2; from 0 on left was 1. At 4 right has been -4 for all of the window.
#[test]
fn left_counts_from_each_time_of_right_on() {
    let said = since(&[1, 5, 6, 7, 8], &[9, 2, -4, -4, -4], (0, 2));
    assert_eq!(said, (2, vec![yes(2), yes(2), no(-4)]));
}

#[test]
fn left_counts_at_the_time_of_right() {
    assert_eq!(since(&[-3, 5], &[9, -4], (1, 1)), (1, vec![no(-3)]));
}

#[test]
fn left_counts_at_the_present() {
    assert_eq!(since(&[5, -3], &[9, 9], (1, 1)), (1, vec![no(-3)]));
    assert_eq!(since(&[5, -3], &[9, 9], (0, 1)), (1, vec![no(-3)]));
}

#[test]
fn both_ends_of_the_window_count() {
    // At 3 the window is 0 to 1; right at 2 and 3 does not count.
    assert_eq!(since(&[7; 4], &[1, -2, 9, 9], (2, 3)), (3, vec![yes(1)]));
    assert_eq!(since(&[7; 4], &[-2, 1, 9, 9], (2, 3)), (3, vec![yes(1)]));
    assert_eq!(since(&[7; 4], &[-2, -1, 9, 9], (2, 3)), (3, vec![no(-1)]));
    // At 2 and 3 the window is the sample before and the present one.
    assert_eq!(since(&[7; 4], &[9, -2, -1, -3], (0, 1)).1, [yes(7), no(-1), no(-1)]);
}

/// A window that would begin before the recording has no verdict, even where
/// what is recorded would decide it.
#[test]
fn windows_are_not_clipped_at_the_start() {
    assert_eq!(since(&[9; 3], &[9; 3], (0, 2)), (2, vec![yes(9)]));
    assert_eq!(since(&[9; 3], &[9; 3], (0, 0)), (0, vec![yes(9); 3]));
}

#[test]
fn once_and_historically_pick_over_the_window() {
    let sheet = two_signals(&[3, -1, 4, 5], &[0; 4]);
    let line = |code, bounds| last_of(&sheet.clone().bounded(code, 0, 0, bounds).end());
    assert_eq!(line(13, (0, 1)).verdicts, [yes(3), yes(4), yes(5)]);
    assert_eq!(line(14, (0, 1)).verdicts, [no(-1), no(-1), yes(4)]);
    assert_eq!(line(13, (2, 3)).verdicts, [yes(3)]);
    assert_eq!(line(14, (2, 3)).verdicts, [no(-1)]);
    assert_eq!(line(14, (3, 3)).verdicts, [yes(3)]);
}

/// "At least 5" of 5 is yes 0, its not is no 0, and the verdicts follow the
/// operands' verdicts, not the margin's sign.
#[test]
fn verdicts_come_from_verdicts() {
    let sheet = SheetBuilder::new(1, 1, 2).samples(&[5, 5]).at_least(0, 5).line(3, 0, 0).truth();
    let line = |code, left, right| {
        last_of(&sheet.clone().bounded(code, left, right, (0, 1)).end()).verdicts
    };
    assert_eq!([line(13, 0, 0), line(14, 0, 0), line(12, 0, 2)].concat(), [yes(0); 3]);
    assert_eq!([line(13, 1, 0), line(14, 1, 0), line(12, 1, 2)].concat(), [no(0); 3]);
    assert_eq!([line(12, 2, 0), line(12, 2, 1)].concat(), [yes(0), no(0)]);
}

#[test]
fn infinities_look_back_too() {
    let sheet = SheetBuilder::new(1, 1, 2).samples(&[0, 0]).truth().line(3, 0, 0);
    let line = |code, left, right| {
        last_of(&sheet.clone().bounded(code, left, right, (0, 1)).end()).verdicts
    };
    let yeses = [line(12, 0, 0), line(13, 0, 0), line(14, 0, 0)].concat();
    assert_eq!(yeses, [YES_PLUS_INFINITY; 3]);
    let noes = [line(12, 0, 1), line(12, 1, 0), line(13, 1, 0), line(14, 1, 0)].concat();
    assert_eq!(noes, [NO_MINUS_INFINITY; 4]);
}

/// Every place has its own past.
#[test]
fn places_do_not_mix() {
    let sheet = SheetBuilder::new(2, 1, 2).samples(&[1, -2, -3, 4]).at_least(0, 0);
    let line = |code| last_of(&sheet.clone().bounded(code, 0, 0, (0, 1)).end()).verdicts;
    assert_eq!(line(13), [yes(1), yes(4)]);
    assert_eq!(line(14), [no(-3), no(-2)]);
}
