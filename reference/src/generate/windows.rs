//! Sheets on which it matters how a window of until or since is read from t on.
//!
//! Few numbers make many ties, with both verdicts at margin 0: there a margin may
//! be known some samples before its verdict is.

use super::random::Random;
use super::ties::{self, Recording};
use crate::builder::SheetBuilder;

/// The codes of until and since.
const READ_ON: [u32; 2] = [5, 12];

/// The least and the greatest number. Of two numbers one line is never a no, and
/// another has both verdicts at margin 0.
const NUMBERS: [(i64, i64); 6] = [(-1, 0), (-1, 0), (0, 1), (0, 1), (-2, 2), (-20, 20)];

/// Lines that are a yes at margin 0, and lines that have both verdicts there.
const YES_AT_0: [u32; 2] = [0, 1];
const EITHER_AT_0: [u32; 2] = [4, 5];

/// A sheet of up to so many places, three at most, without a road.
pub fn sheet(random: &mut Random, most_places: usize) -> Vec<u32> {
    let places = random.count(1, most_places.min(3));
    let samples = random.count(2, 8);
    let numbers = random.pick(&NUMBERS);
    let sheet = Recording { places, roads: &[], samples, numbers }.lines(random);
    let lines = 0..random.count(1, 4);
    lines.fold(sheet, |sheet, _| line(random, sheet, samples)).end()
}

/// Adds a line over two others, which have so many samples.
fn line(random: &mut Random, sheet: SheetBuilder, samples: usize) -> SheetBuilder {
    let upper = random.field(1, samples as u32 - 1);
    let any = random.field(0, upper);
    let lower = random.pick(&[0, any, any, upper]);
    let (left, right) = operands(random);
    sheet.bounded(random.pick(&READ_ON), left, right, (lower, upper))
}

fn operands(random: &mut Random) -> (u32, u32) {
    if random.chance(50) {
        (random.pick(&YES_AT_0), random.pick(&EITHER_AT_0))
    } else {
        (ties::line(random), ties::line(random))
    }
}
