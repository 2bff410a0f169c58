//! Sheets at the limits of what the printing program takes and lends.

use super::layout;
use super::random::Random;
use crate::builder::SheetBuilder;
use crate::layout::Layout;
use crate::sheet::MOST_SAMPLES;

/// The words that frame a sheet or an answer: front and end.
fn frame(layout: Layout) -> usize {
    layout.front_words() + 1
}

/// A sheet of one place whose answer has just so many words, 16,000 to 16,400:
/// fifteen lines of full length and one that its upper bound shortens.
pub fn sheet_of_answer(random: &mut Random, answer_words: usize) -> Vec<u32> {
    const FULL_LINES: usize = 15;
    let full = FULL_LINES * (1 + MOST_SAMPLES);
    let layout = layout(random, 1);
    let length = answer_words - frame(layout) - full - 1;
    let upper = (MOST_SAMPLES - length) as u32;
    let sheet = SheetBuilder::laid_out(layout, 1, 1, MOST_SAMPLES as u32)
        .samples(&numbers(random, MOST_SAMPLES))
        .at_least(0, 0);
    let earlier = 0..FULL_LINES as u32 - 1;
    let sheet = earlier.fold(sheet, |sheet, line| sheet.line(3, line, 0));
    let code = random.pick(&[9, 10, 13, 14]);
    sheet.bounded(code, 0, 0, (upper / 2, upper)).end()
}

/// A sheet of just so many words, 300 to 8,200, that is accepted where 16,384
/// words are lent.
pub fn sheet_of_words(random: &mut Random, words: usize) -> Vec<u32> {
    const FIRST_LINE: usize = 2;
    let (places, signals) = random.pick(&[(1, 8), (1, 16), (2, 16)]);
    let row = places * signals;
    let layout = layout(random, places);
    let unframed = words - frame(layout) - FIRST_LINE;
    let samples = unframed / row;
    let mut left = unframed - samples * row;
    let mut sheet = SheetBuilder::laid_out(layout, places as u32, signals as u32, samples as u32)
        .samples(&numbers(random, samples * row))
        .at_least(0, 0);
    while left > 0 {
        let (longer, taken) = line_within(random, sheet, left);
        sheet = longer;
        left -= taken;
    }
    sheet.end()
}

/// Adds a line of at most so many words; gives how many it took.
fn line_within(random: &mut Random, sheet: SheetBuilder, left: usize) -> (SheetBuilder, usize) {
    match left {
        1 => (sheet.truth(), 1),
        2 => (sheet.at_most(0, random.field(0, 9) as i32), 2),
        _ => (sheet.bounded(6, 0, 0, (0, 0)), 3),
    }
}

fn numbers(random: &mut Random, count: usize) -> Vec<i32> {
    (0..count).map(|_| random.between(-20, 20) as i32).collect()
}
