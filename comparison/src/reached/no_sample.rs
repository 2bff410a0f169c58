//! The ways to refusal 13: windows of time that are too long, and operands that
//! have no sample in common.

use super::chosen;
use super::extents::{AHEAD, BACK, WITH_TWO};
use reference::layout::ENOUGH_DISTANCES;
use reference::sheet::{check, Extent, Sheet, GREATEST_WEIGHT};
use reference::words::{self, kinds};

/// What is looked for in a window that is too long.
const LONG: [&str; 4] = [
    "upper bound just what is there",
    "upper bound beyond what is there",
    "upper bound 268,435,455",
    "over a line that begins late",
];

/// How two operands can miss each other.
const APART: [&str; 4] = [
    "left begins where right ends",
    "right begins where left ends",
    "left begins after right has ended",
    "right begins after left has ended",
];

const NO_COMMON: &str = "operands without a common sample";

/// The texts of all labels.
pub fn texts() -> Vec<String> {
    let timed = AHEAD.iter().chain(&BACK);
    let long = timed.flat_map(|&code| LONG.map(|text| of_code(code, text)));
    let apart = WITH_TWO.iter().map(|&code| of_code(code, NO_COMMON));
    long.chain(apart).chain(APART.map(String::from)).collect()
}

fn of_code(code: u32, text: &str) -> String {
    format!("code {code}, {text}")
}

/// The texts of the labels of a line that is refused at this place.
pub fn shown(words: &[u32], place: usize) -> Vec<String> {
    let Some(sheet) = before(words, place) else {
        return Vec::new();
    };
    let code = words::field(words[place], 27, 20);
    let left = sheet.lines[words::field(words[place], 19, 10) as usize].extent;
    let right = if WITH_TWO.contains(&code) {
        sheet.lines[words::field(words[place], 9, 0) as usize].extent
    } else {
        left
    };
    let common = left.common(right);
    if common.is_empty() {
        return vec![of_code(code, NO_COMMON), APART[apart(left, right)].into()];
    }
    let upper = words::payload(words[place + 2]);
    long(common, upper).into_iter().map(|text| of_code(code, text)).collect()
}

/// The sheet with the lines that stand before the refused one.
fn before(words: &[u32], place: usize) -> Option<Sheet> {
    let mut before = words[..place].to_vec();
    before.push(words::word(kinds::END, place as u32));
    check(&before, ENOUGH_DISTANCES).ok()
}

/// The index in [`APART`].
fn apart(left: Extent, right: Extent) -> usize {
    match (left.first == right.end, right.first == left.end) {
        (true, _) => 0,
        (_, true) => 1,
        _ => 2 + usize::from(right.first > left.end),
    }
}

fn long(common: Extent, upper: u32) -> Vec<&'static str> {
    let beyond = upper as usize > common.length();
    chosen(&LONG, [!beyond, beyond, upper == GREATEST_WEIGHT, common.first > 0]).collect()
}
