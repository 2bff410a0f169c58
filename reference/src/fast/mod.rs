//! Evaluation by the published algorithms, for networks of any size.
//!
//! Every operator is a scheme of least and greatest. Read over margins the
//! scheme is Definition 3.4, read over verdicts it is Definition 3.1
//! ("minimum becomes 'all', maximum 'some'"), so each is written once over a
//! [`Scale`] and run on both.

mod ahead;
mod back;
mod carried;
mod rows;
mod scale;
mod space;
mod surround;

use crate::distance::Distances;
use crate::evaluation::Evaluation;
use crate::margin::Verdict;
use crate::sheet::{Extent, Line, Operator, Reach, Sheet};
use rows::Rows;
use scale::Scale;
use space::Space;
use surround::{surround, Islands};

/// The verdicts of a sheet by the published algorithms.
pub struct Fast {
    places: usize,
    /// The first sample of each line.
    firsts: Vec<usize>,
    margins: Vec<Vec<i32>>,
    verdicts: Vec<Vec<bool>>,
    rounds: u64,
}

impl Evaluation for Fast {
    fn evaluate(sheet: &Sheet, distances: &Distances) -> Self {
        let space = Space::new(sheet, distances);
        let Table { lines: margins, rounds, .. } = Table::<i32>::new(sheet, &space);
        let Table { lines: verdicts, .. } = Table::<bool>::new(sheet, &space);
        let firsts = sheet.lines.iter().map(|line| line.extent.first).collect();
        Fast { places: sheet.head.places, firsts, margins, verdicts, rounds }
    }

    fn verdict(&self, line: usize, sample: usize, place: usize) -> Verdict {
        let at = (sample - self.firsts[line]) * self.places + place;
        Verdict { yes: self.verdicts[line][at], margin: scale::margin(self.margins[line][at]) }
    }

    fn rounds(&self) -> u64 {
        self.rounds
    }
}

/// The values of the lines so far, each row by row (a sample's places side by
/// side) from the line's first sample on, and the greatest number of rounds that
/// a surround took.
struct Table<'a, S> {
    sheet: &'a Sheet,
    space: &'a Space<'a>,
    lines: Vec<Vec<S>>,
    rounds: u64,
}

impl<'a, S: Scale> Table<'a, S> {
    /// The values of all lines.
    fn new(sheet: &'a Sheet, space: &'a Space) -> Self {
        let lines = Vec::with_capacity(sheet.lines.len());
        let mut table = Table { sheet, space, lines, rounds: 0 };
        for line in &sheet.lines {
            let values = table.values(line);
            table.lines.push(values);
        }
        table
    }

    /// The values of a line from those of the lines before it. A surround raises
    /// the rounds to its own.
    fn values(&mut self, line: &Line) -> Vec<S> {
        let (sheet, space) = (self.sheet, self.space);
        let looked_at = looked_at(line);
        let of = |operand: usize| self.rows(operand, looked_at);
        match line.operator {
            Operator::True => vec![S::TOP; sheet.head.samples * sheet.head.places],
            Operator::AtLeast { signal, constant } => {
                atoms(sheet, signal, |sample| sample - constant)
            }
            Operator::AtMost { signal, constant } => {
                atoms(sheet, signal, |sample| constant - sample)
            }
            Operator::Not { left } => of(left).values.iter().map(|value| value.negate()).collect(),
            Operator::And { left, right } => pointwise(of(left), of(right), S::min),
            Operator::Or { left, right } => pointwise(of(left), of(right), S::max),
            Operator::Until { left, right, bounds } => ahead::until(of(left), of(right), bounds),
            Operator::Eventually { left, bounds } => ahead::window(of(left), bounds, S::max),
            Operator::Always { left, bounds } => ahead::window(of(left), bounds, S::min),
            Operator::Since { left, right, bounds } => back::since(of(left), of(right), bounds),
            Operator::Once { left, bounds } => back::window(of(left), bounds, S::max),
            Operator::Historically { left, bounds } => back::window(of(left), bounds, S::min),
            Operator::Somewhere { left, bounds } => {
                space.range(of(left).values, bounds, S::BOTTOM, S::max)
            }
            Operator::Everywhere { left, bounds } => {
                space.range(of(left).values, bounds, S::TOP, S::min)
            }
            Operator::Surround { left, right, bounds } => {
                let settled = surround(space, of(left), of(right), bounds, Islands::LeftOut);
                self.settled(settled)
            }
            Operator::SurroundOrIsland { left, right, bounds } => {
                let settled = surround(space, of(left), of(right), bounds, Islands::Counted);
                self.settled(settled)
            }
        }
    }

    /// The values of a surround, whose rounds are counted.
    fn settled(&mut self, (values, rounds): (Vec<S>, u64)) -> Vec<S> {
        self.rounds = rounds.max(self.rounds);
        values
    }

    /// The rows of an earlier line at these samples, all of which it has.
    fn rows(&self, line: usize, samples: Extent) -> Rows<'_, S> {
        let first = self.sheet.lines[line].extent.first;
        let all = Rows { values: &self.lines[line], places: self.sheet.head.places };
        all.from(samples.first - first).up_to(samples.length())
    }
}

/// The samples at which a line looks at its operands.
fn looked_at(line: &Line) -> Extent {
    let Extent { first, end } = line.extent;
    match line.operator.reach() {
        Reach::Here => Extent { first, end },
        Reach::Ahead(upper) => Extent { first, end: end + upper as usize },
        Reach::Back(upper) => Extent { first: first - upper as usize, end },
    }
}

/// Codes 1 and 2: a difference at every sample and place.
fn atoms<S: Scale>(sheet: &Sheet, signal: usize, difference: impl Fn(i32) -> i32) -> Vec<S> {
    let of_signal = sheet.readings.iter().skip(signal);
    of_signal
        .step_by(sheet.head.signals)
        .map(|&sample| S::of_difference(difference(sample)))
        .collect()
}

fn pointwise<S: Scale>(left: Rows<S>, right: Rows<S>, pick: impl Fn(S, S) -> S) -> Vec<S> {
    let pairs = left.values.iter().zip(right.values);
    pairs.map(|(&left, &right)| pick(left, right)).collect()
}
