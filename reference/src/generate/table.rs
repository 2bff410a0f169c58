//! Tables of lines for valid sheets.

use super::random::Random;
use super::valid::Numbers;
use crate::builder::SheetBuilder;
use crate::sheet::{Extent, GREATEST_WEIGHT as GREATEST};

/// What the lines of a sheet draw on.
pub struct Source<'a> {
    /// The number of signals.
    pub signals: usize,
    /// The number of samples T.
    pub samples: usize,
    /// The numbers that constants are drawn from.
    pub numbers: Numbers,
    /// The sheet's samples, as constants that tie.
    pub readings: &'a [i32],
    /// The weights of the sheet's roads, of which bounds are made.
    pub weights: Vec<u32>,
    /// The greatest upper bound of a line of code 7.
    pub widest: u32,
}

/// Codes of lines, those with the most to go wrong more often.
const CODES: [u32; 26] =
    [0, 1, 1, 2, 2, 3, 3, 4, 4, 5, 5, 6, 7, 7, 7, 8, 9, 10, 11, 11, 12, 12, 13, 14, 15, 15];

/// Codes that need no earlier line.
const FIRST_CODES: [u32; 7] = [0, 1, 1, 1, 2, 2, 2];

/// The code of the surround to which a region with an empty boundary does not
/// count.
pub const WITHOUT_ISLANDS: u32 = 7;

/// The code of the surround to which it does.
pub const WITH_ISLANDS: u32 = 15;

/// A line that has been drawn.
#[derive(Clone, Copy)]
struct Drawn {
    code: u32,
    left: u32,
    right: u32,
    parameter: Parameter,
    extent: Extent,
}

/// What follows a line's word.
#[derive(Clone, Copy)]
enum Parameter {
    Nothing,
    Constant(i32),
    Bounds(u32, u32),
}

impl Drawn {
    fn written(self, sheet: SheetBuilder) -> SheetBuilder {
        let sheet = sheet.line(self.code, self.left, self.right);
        match self.parameter {
            Parameter::Nothing => sheet,
            Parameter::Constant(number) => sheet.constant(number),
            Parameter::Bounds(lower, upper) => sheet.bounds(lower, upper),
        }
    }
}

/// Adds so many valid lines to a sheet.
pub fn lines(
    random: &mut Random,
    mut sheet: SheetBuilder,
    source: &Source,
    count: usize,
) -> SheetBuilder {
    let mut extents: Vec<Extent> = Vec::new();
    let mut last = None;
    for number in 0..count {
        let early = number == 0 || (number < 3 && random.chance(60));
        let code = random.pick(if early { &FIRST_CODES[..] } else { &CODES[..] });
        let again = other_reading(random, last);
        let drawn = again.unwrap_or_else(|| line(random, source, &extents, code));
        sheet = drawn.written(sheet);
        extents.push(drawn.extent);
        last = Some(drawn);
    }
    sheet
}

/// After a surround without islands often the same with islands.
fn other_reading(random: &mut Random, last: Option<Drawn>) -> Option<Drawn> {
    let surround = last.filter(|line| line.code == WITHOUT_ISLANDS && random.chance(40));
    surround.map(|line| Drawn { code: WITH_ISLANDS, ..line })
}

/// Draws one line of a code.
fn line(random: &mut Random, source: &Source, extents: &[Extent], code: u32) -> Drawn {
    let whole = Extent::whole(source.samples);
    let nothing = Parameter::Nothing;
    match code {
        0 => Drawn { code, left: 0, right: 0, parameter: nothing, extent: whole },
        1 | 2 => {
            let left = random.below(source.signals) as u32;
            let parameter = Parameter::Constant(constant(random, source));
            Drawn { code, left, right: 0, parameter, extent: whole }
        }
        _ => {
            let left = operand(random, extents.len());
            let binary = matches!(code, 4 | 5 | 7 | 8 | 12 | 15);
            let right = if binary { partner(random, extents, left) } else { 0 };
            let common = if binary { extents[left].common(extents[right]) } else { extents[left] };
            let (parameter, extent) = bounded(random, source, common, code);
            Drawn { code, left: left as u32, right: right as u32, parameter, extent }
        }
    }
}

/// The bounds of a line whose operands have this extent in common, if its code
/// has any, and the extent that they leave.
fn bounded(random: &mut Random, source: &Source, common: Extent, code: u32) -> (Parameter, Extent) {
    match code {
        3 | 4 | 8 => (Parameter::Nothing, common),
        6 | 7 | 11 | 15 => {
            let (lower, upper) = distance_bounds(random, &source.weights);
            let widest = if code == WITHOUT_ISLANDS { source.widest } else { GREATEST };
            (Parameter::Bounds(lower.min(widest), upper.min(widest)), common)
        }
        _ => {
            let (lower, upper) = time_bounds(random, common.length());
            let looks_back = code >= 12;
            let extent =
                if looks_back { common.begins_later(upper) } else { common.ends_sooner(upper) };
            (Parameter::Bounds(lower, upper), extent)
        }
    }
}

/// A constant, often one that a sample equals.
fn constant(random: &mut Random, source: &Source) -> i32 {
    if random.chance(50) {
        random.pick(source.readings)
    } else {
        source.numbers.draw(random)
    }
}

/// An earlier line, often one of the last, so that formulas nest.
fn operand(random: &mut Random, count: usize) -> usize {
    if random.chance(50) {
        count - 1 - random.below(count.min(3))
    } else {
        random.below(count)
    }
}

/// An earlier line that has a sample in common with another, as that line itself
/// has.
fn partner(random: &mut Random, extents: &[Extent], other: usize) -> usize {
    let fits = |&line: &usize| !extents[line].common(extents[other]).is_empty();
    let drawn = operand(random, extents.len());
    if fits(&drawn) {
        return drawn;
    }
    let fitting: Vec<usize> = (0..extents.len()).filter(fits).collect();
    random.pick(&fitting)
}

/// Bounds of time that leave the line a length of at least 1.
fn time_bounds(random: &mut Random, length: usize) -> (u32, u32) {
    let most = length - 1;
    let upper = match random.below(10) {
        0..=5 => random.count(0, most.min(2)),
        6 => most,
        7 => 0,
        _ => random.count(0, most),
    };
    let lower = match random.below(4) {
        0 => 0,
        1 => upper,
        _ => random.count(0, upper),
    };
    (lower as u32, upper as u32)
}

/// Bounds of distance: empty, equal, huge, or near sums of a network's weights.
pub fn distance_bounds(random: &mut Random, weights: &[u32]) -> (u32, u32) {
    let near = |random: &mut Random| {
        let weight = if weights.is_empty() { 1 } else { random.pick(weights) };
        let sum = u64::from(weight) * random.below(4) as u64;
        (sum as u32).min(GREATEST)
    };
    let (a, b) = (near(random), near(random));
    match random.below(12) {
        0 => (0, 0),
        1 => (0, GREATEST),
        2 => (GREATEST, GREATEST),
        3 => (a, a),
        4 => (a, GREATEST),
        5 => (1, b.max(1)),
        6..=8 => (0, b),
        _ => (a.min(b), a.max(b)),
    }
}
