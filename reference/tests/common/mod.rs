//! Judging in tests: both evaluators, dirty buffers, every lent byte compared.

#![allow(dead_code)]

use reference::answer::AnswerLine;
use reference::builder::SheetBuilder;
use reference::convert::convert;
use reference::correct_sheet;
use reference::evaluation::Evaluation;
use reference::fast::Fast;
use reference::generate::random::Random;
use reference::generate::tools::Given;
use reference::generate::{aim, Case};
use reference::judge::{judge, Outcome};
use reference::layout::Layout;
use reference::left::Left;
use reference::margin::{Margin, Verdict};
use reference::meaning::Meaning;
use reference::road::Road;
use reference::tool;
use reference::words;

/// The result of a call for which 40 bytes were lent.
pub fn outcome(left: &Left) -> Outcome {
    left.outcome().expect("40 bytes were lent")
}

/// The answer's words of a call for which whole ones were lent.
pub fn answer_words(left: &Left) -> Vec<u32> {
    left.answer_words().expect("whole words were lent")
}

/// The first entries of the distance table.
pub fn distances(left: &Left, count: usize) -> Vec<u64> {
    (0..count).map(|index| left.distance(index).expect("a distance")).collect()
}

/// Judges a case in buffers that are not clean.
pub fn judged_by<E: Evaluation>(case: &Case) -> Left {
    let mut distances = vec![0xA5; case.distances];
    let mut answer = vec![0x5A; case.answer];
    let mut result = vec![0xC3; case.result];
    let number = judge::<E>(&case.sheet, &mut distances, &mut answer, &mut result);
    Left { number, distances, answer, result }
}

/// Takes a sheet to a layout, in buffers that are not clean.
pub fn converted(layout: Layout, given: &Given) -> tool::Left {
    left_by(given, |output, result| convert(layout, &given.inputs[0], output, result))
}

/// Corrects a sheet, in buffers that are not clean.
pub fn corrected(given: &Given) -> tool::Left {
    let [sheet, list] = &given.inputs[..] else { panic!("a sheet and a list") };
    left_by(given, |output, result| correct_sheet(sheet, list, output, result))
}

/// What a tool leaves in buffers that are not clean.
fn left_by(given: &Given, tool: impl FnOnce(&mut [u8], &mut [u8]) -> u64) -> tool::Left {
    let mut output = vec![0x5A; given.output];
    let mut result = vec![0xC3; given.result];
    let number = tool(&mut output, &mut result);
    tool::Left { number, output, result }
}

/// The number and place of a tool that refuses; all else must be zero.
pub fn tool_refused(left: &tool::Left) -> (u64, u64) {
    assert_tool_refused(left);
    let outcome = left.outcome().expect("24 bytes were lent");
    (outcome.number, outcome.place)
}

/// "On refusal the output is all zero", and no words are written. A result that is
/// not of 24 bytes is zero as well.
pub fn assert_tool_refused(left: &tool::Left) {
    assert_ne!(left.number, 0);
    assert!(left.output.iter().all(|&byte| byte == 0));
    match left.outcome() {
        Some(outcome) => assert_eq!((outcome.number, outcome.words), (left.number, 0)),
        None => assert!(left.result.iter().all(|&byte| byte == 0)),
    }
}

/// A tool that is refused with 16 tells it alone, in the result if that has its length.
pub fn assert_tool_told_16(left: &tool::Left) {
    assert_tool_refused(left);
    assert_eq!(left.number, 16);
    let told = tool::Outcome { number: 16, ..tool::Outcome::default() };
    assert_eq!(left.outcome(), (left.result.len() == 24).then_some(told));
}

/// Sheets of every fault that a sheet can have of its own, with number and place as the
/// judge tells them.
pub fn sheets_at_fault() -> impl Iterator<Item = (Vec<u32>, (u64, u64))> {
    let aims = (2..=14).chain([17]).flat_map(|number| (0..60).map(move |seed| (number, seed)));
    aims.map(|(number, seed)| {
        let case = aim::aimed(&mut Random::new(seed), number, 80);
        let words = words::from_bytes(&case.sheet).expect("whole words");
        let judged = outcome(&judged_by::<Fast>(&Case::of(&words, 1 << 16)));
        assert_eq!(judged.number, number);
        (words, (number, judged.place))
    })
}

/// Judges a case with both evaluators, which must leave the same bytes.
pub fn judged(case: &Case) -> Left {
    let left = judged_by::<Meaning>(case);
    assert_eq!(left, judged_by::<Fast>(case));
    left
}

/// What judging words leaves, with plenty lent.
pub fn judged_words(words: &[u32]) -> Left {
    judged(&Case::of(words, 16_384))
}

/// The number and place that words are refused with; all else must be zero.
pub fn refused(words: &[u32]) -> (u64, u64) {
    let left = judged_words(words);
    assert_refused(&left);
    let outcome = outcome(&left);
    assert_eq!(left.number, outcome.number);
    (outcome.number, outcome.place)
}

/// "A refusal has words, rounds and yes count 0, and sets the whole answer and
/// the whole distance table to zero."
pub fn assert_refused(left: &Left) {
    assert_ne!(left.number, 0);
    assert!(left.distances.iter().all(|&byte| byte == 0));
    assert!(left.answer.iter().all(|&byte| byte == 0));
    if left.result.len() == 40 {
        let expected =
            Outcome { number: left.number, place: outcome(left).place, ..Outcome::default() };
        assert_eq!(outcome(left), expected);
    } else {
        assert!(left.result.iter().all(|&byte| byte == 0));
    }
}

/// The verdicts of the last line of an accepted sheet, row by row; the line has
/// them from sample 0 on.
pub fn last_line(words: &[u32]) -> Vec<Verdict> {
    let line = last_of(words);
    assert_eq!(line.first, 0);
    line.verdicts
}

/// The last line of an accepted sheet.
pub fn last_of(words: &[u32]) -> AnswerLine {
    let left = judged_words(words);
    assert_eq!(left.number, 0);
    left.whole_answer().expect("a whole answer").lines.pop().expect("a line")
}

pub fn yes(number: i64) -> Verdict {
    finite(true, number)
}

pub fn no(number: i64) -> Verdict {
    finite(false, number)
}

fn finite(yes: bool, number: i64) -> Verdict {
    let margin = Margin::Finite(number);
    Verdict { yes, margin }
}

pub const YES_PLUS_INFINITY: Verdict = Verdict { yes: true, margin: Margin::PlusInfinity };

pub const NO_MINUS_INFINITY: Verdict = Verdict { yes: false, margin: Margin::MinusInfinity };

/// The 19 words of example A.
pub const EXAMPLE_A: [u32; 19] = [
    0x10201002, 0x20000001, 0x30000003, 0x40000005, 0x47FFFFFE, 0x40000001, 0x40000004, 0x50100000,
    0x80000000, 0x50900000, 0x60000000, 0x70000001, 0x50600000, 0x60000001, 0x70000003, 0x50700800,
    0x60000000, 0x70000003, 0xF0000012,
];

/// The 17 words of the looking-back example.
pub const LOOKING_BACK: [u32; 17] = [
    0x10101004, 0x40000003, 0x47FFFFFF, 0x40000004, 0x40000005, 0x50100000, 0x80000000, 0x50D00000,
    0x60000001, 0x70000002, 0x50E00000, 0x60000001, 0x70000002, 0x50C00000, 0x60000000, 0x70000001,
    0xF0000010,
];

/// The 18 words of the example with and without islands: two places, left (5, 6)
/// in line 0, right (3, 4) in line 1, a surround 0..9 of code 7 and one of 15.
pub const ISLANDS: [u32; 18] = [
    0x10202001, 0x20000001, 0x30000001, 0x40000005, 0x40000003, 0x40000006, 0x40000004, 0x50100000,
    0x80000000, 0x50100400, 0x80000000, 0x50700001, 0x60000000, 0x70000009, 0x50F00001, 0x60000000,
    0x70000009, 0xF0000011,
];

/// One sample of a network: at each place left, which line 0 is, and right,
/// which line 1 is.
pub fn left_and_right(layout: Layout, roads: &[Road], places: &[(i32, i32)]) -> SheetBuilder {
    let numbers: Vec<i32> = places.iter().flat_map(|&(left, right)| [left, right]).collect();
    let sheet = SheetBuilder::laid_out(layout, places.len() as u32, 2, 1);
    let sheet = roads.iter().fold(sheet, SheetBuilder::with_road);
    sheet.samples(&numbers).at_least(0, 0).at_least(1, 0)
}

/// Three places in a row with weights 1, two signals, one sample each.
pub fn row_of_three(left: [i32; 3], right: [i32; 3]) -> SheetBuilder {
    SheetBuilder::new(3, 2, 1)
        .road(0, 1, 1)
        .road(1, 2, 1)
        .samples(&[left[0], right[0], left[1], right[1], left[2], right[2]])
        .at_least(0, 0)
        .at_least(1, 0)
}
