//! Aims at the samples of a line: refusal 13.

use super::line_words;
use crate::builder::SheetBuilder;
use crate::generate::random::Random;
use crate::layout::ENOUGH_DISTANCES;
use crate::sheet::GREATEST_WEIGHT as GREATEST;
use crate::sheet::{check, Extent, Operator, Reach, Sheet, MOST_LINES};
use crate::words::{self, kinds};

/// 13: a window of time that leaves no sample, or operands that have none in
/// common.
pub fn no_sample(random: &mut Random, words: Vec<u32>) -> Option<Vec<u32>> {
    let sheet = check(&words, ENOUGH_DISTANCES).ok()?;
    match random.below(4) {
        0 | 1 => long_window(random, words, &sheet),
        2 => parted(random, words, &sheet),
        _ => added_apart(random, &words, &sheet),
    }
}

/// Raises an upper bound of time to as many samples as the operands have in
/// common, or more.
fn long_window(random: &mut Random, mut words: Vec<u32>, sheet: &Sheet) -> Option<Vec<u32>> {
    let lines = sheet.lines.iter().zip(line_words(&words));
    let timed: Vec<(usize, u32)> = lines
        .filter_map(|(line, at)| match line.operator.reach() {
            Reach::Here => None,
            Reach::Ahead(upper) | Reach::Back(upper) => {
                Some((at, line.extent.length() as u32 + upper))
            }
        })
        .collect();
    let last = *timed.last()?;
    let any = random.pick(&timed);
    let (at, common) = random.pick(&[any, any, last]);
    let any = random.field(common, GREATEST);
    let upper = random.pick(&[common, common, common + 1, any, GREATEST]);
    words[at + 2] = words::word(kinds::UPPER, upper);
    Some(words)
}

/// Turns the two operands of a line to lines that have no sample in common.
fn parted(random: &mut Random, mut words: Vec<u32>, sheet: &Sheet) -> Option<Vec<u32>> {
    let has_two = |operator: &Operator| operator.operands()[1].is_some();
    let binary: Vec<usize> =
        (0..sheet.lines.len()).filter(|&line| has_two(&sheet.lines[line].operator)).collect();
    let last = *binary.last()?;
    let any = random.pick(&binary);
    let line = random.pick(&[any, last]);
    let extent = |line: usize| sheet.lines[line].extent;
    let pairs = (0..line).flat_map(|left| (0..line).map(move |right| (left, right)));
    let apart: Vec<(usize, usize)> =
        pairs.filter(|&(left, right)| extent(left).common(extent(right)).is_empty()).collect();
    if apart.is_empty() {
        return None;
    }
    let (left, right) = random.pick(&apart);
    let at = line_words(&words)[line];
    let code = words[at] & (0xFF << 20);
    words[at] = words::word(kinds::LINE, code | (left << 10 | right) as u32);
    Some(words)
}

/// Adds a line that begins late, one that ends before that or just there, and
/// one on both.
fn added_apart(random: &mut Random, words: &[u32], sheet: &Sheet) -> Option<Vec<u32>> {
    let count = sheet.lines.len() as u32;
    let parts = |line: &u32| sheet.lines[*line as usize].extent.length() >= 2;
    let divisible: Vec<u32> = (0..count).filter(parts).collect();
    if divisible.is_empty() || sheet.lines.len() + 3 > MOST_LINES {
        return None;
    }
    let divided = random.pick(&divisible);
    let (back, ahead) = uppers(random, sheet.lines[divided as usize].extent);
    let mut windows = [(random.pick(&[12, 13, 14]), back), (random.pick(&[5, 9, 10]), ahead)];
    random.shuffle(&mut windows);
    let added = windows.iter().fold(SheetBuilder::resume(words), |sheet, &(code, upper)| {
        let right = if matches!(code, 5 | 12) { divided } else { 0 };
        sheet.bounded(code, divided, right, (random.field(0, upper), upper))
    });
    Some(joined(random, added, (count, count + 1)).end())
}

/// How far two windows over a line look back and ahead, so that each keeps a
/// sample and both together none.
fn uppers(random: &mut Random, extent: Extent) -> (u32, u32) {
    let length = extent.length() as u32;
    let back = random.field(1, length - 1);
    let any = random.field(length - back, length - 1);
    (back, random.pick(&[length - back, length - back, any]))
}

/// Adds a line on two others, of any code that has two operands.
fn joined(random: &mut Random, sheet: SheetBuilder, (one, other): (u32, u32)) -> SheetBuilder {
    let (left, right) = random.pick(&[(one, other), (other, one)]);
    let code = random.pick(&[4, 5, 7, 8, 12, 15]);
    let upper = random.pick(&[0, 0, 1, GREATEST]);
    match code {
        4 | 8 => sheet.line(code, left, right),
        _ => sheet.bounded(code, left, right, (0, upper)),
    }
}
