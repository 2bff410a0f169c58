//! A plain evaluator that is right but for the one fault it is told to make, and
//! the engine over it.

use super::network::Network;
use crate::{Engine, Filled, Implementation};
use reference::distance::Distances;
use reference::evaluation::Evaluation;
use reference::margin::{Margin, Verdict};
use reference::sheet::{Bounds, Extent, Line, Operator, Reach, Sheet};
use std::ops::RangeInclusive;

/// The faults.
pub const NONE: u32 = 0;
pub const SIGN: u32 = 1;
pub const ONE_ROUND: u32 = 2;
pub const IN_PLACE: u32 = 3;
pub const UPPER_MASK: u32 = 4;
pub const AHEAD_CLIPPED: u32 = 5;
pub const BACK_CLIPPED: u32 = 6;
pub const LEFT_OF_WHOLE_WINDOW: u32 = 7;
pub const LEFT_AFTER_RIGHT: u32 = 8;
pub const LEFT_BEFORE_NOW: u32 = 9;
pub const OWN_FIRST: u32 = 10;
pub const ISLANDS_COUNTED: u32 = 11;
pub const ISLANDS_AT_ZERO: u32 = 12;
pub const RUN_OF_CENTRE: u32 = 13;
pub const RUNS_OF_BALL: u32 = 14;
pub const RUNS_OF_ALL: u32 = 15;
pub const RUNS_OF_NEIGHBOURS: u32 = 16;
pub const ROUNDS_OF_PLAIN: u32 = 17;
pub const ROUNDS_OF_BEST: u32 = 18;
pub const ROUND_OF_LONE: u32 = 19;
pub const LEAST_OF_RUNS: u32 = 20;
pub const LAST_OF_RUNS: u32 = 21;
pub const RIGHT_CUT_OUT: u32 = 22;
pub const BOTH_CUT_OUT: u32 = 23;
pub const BOUNDARY_WITHOUT_LEFT: u32 = 24;
pub const RUNS_TOWARDS: u32 = 25;

/// A row of verdicts, one for each place.
pub type Row = Vec<Verdict>;

pub const TOP: Verdict = Verdict { yes: true, margin: Margin::PlusInfinity };
pub const BOTTOM: Verdict = Verdict { yes: false, margin: Margin::MinusInfinity };

/// The rows of all lines with their extents, and the rounds.
pub struct Faulty<const FAULT: u32> {
    lines: Vec<(Extent, Vec<Row>)>,
    /// The first sample that the line being evaluated looks at.
    looks_from: usize,
    rounds: u64,
}

impl<const FAULT: u32> Evaluation for Faulty<FAULT> {
    fn evaluate(sheet: &Sheet, distances: &Distances) -> Self {
        let mut this = Faulty { lines: Vec::new(), looks_from: 0, rounds: 0 };
        for line in &sheet.lines {
            this.looks_from = looks_from(line);
            let samples = line.extent.samples();
            let rows = samples.map(|at| this.row(sheet, distances, &line.operator, at));
            let rows = rows.collect::<Vec<_>>();
            this.rounds = rows.iter().map(|row| row.1).fold(this.rounds, u64::max);
            this.lines.push((line.extent, rows.into_iter().map(|row| row.0).collect()));
        }
        this
    }

    fn verdict(&self, line: usize, sample: usize, place: usize) -> Verdict {
        let (extent, rows) = &self.lines[line];
        let verdict = rows[sample - extent.first][place];
        if FAULT == SIGN {
            return Verdict { yes: verdict.margin >= Margin::Finite(0), ..verdict };
        }
        verdict
    }

    fn rounds(&self) -> u64 {
        self.rounds
    }
}

/// An engine that reckons extents wrongly may look back beyond the start.
fn looks_from(line: &Line) -> usize {
    match line.operator.reach() {
        Reach::Back(upper) => line.extent.first.saturating_sub(upper as usize),
        _ => line.extent.first,
    }
}

pub fn lesser(a: Verdict, b: Verdict) -> Verdict {
    Verdict { yes: a.yes && b.yes, margin: a.margin.min(b.margin) }
}

pub fn not(a: Verdict) -> Verdict {
    Verdict { yes: !a.yes, margin: a.margin.negate() }
}

pub fn greater(a: Verdict, b: Verdict) -> Verdict {
    not(lesser(not(a), not(b)))
}

fn of_difference(difference: i32) -> Verdict {
    Verdict { yes: difference >= 0, margin: Margin::Finite(difference.into()) }
}

pub fn each(left: &Row, right: &Row, join: fn(Verdict, Verdict) -> Verdict) -> Row {
    left.iter().zip(right).map(|(&left, &right)| join(left, right)).collect()
}

impl<const FAULT: u32> Faulty<FAULT> {
    /// A line's row at a sample, the nearest it has where extents are wrong; the
    /// fault is that it is read from the line's own first sample.
    fn at(&self, line: usize, sample: usize) -> &Row {
        let (extent, rows) = &self.lines[line];
        let from = if FAULT == OWN_FIRST { self.looks_from } else { extent.first };
        &rows[sample.saturating_sub(from).min(rows.len() - 1)]
    }

    /// One sample of a line at every place, and the rounds it took.
    fn row(
        &self,
        sheet: &Sheet,
        distances: &Distances,
        operator: &Operator,
        at: usize,
    ) -> (Row, u64) {
        let places = 0..sheet.head.places;
        let reading = |place, signal| sheet.reading(at, place, signal);
        let of = |line: usize| self.at(line, at);
        let row = match *operator {
            Operator::True => vec![TOP; sheet.head.places],
            Operator::AtLeast { signal, constant } => {
                places.map(|place| of_difference(reading(place, signal) - constant)).collect()
            }
            Operator::AtMost { signal, constant } => {
                places.map(|place| of_difference(constant - reading(place, signal))).collect()
            }
            Operator::Not { left } => of(left).iter().copied().map(not).collect(),
            Operator::And { left, right } => each(of(left), of(right), lesser),
            Operator::Or { left, right } => each(of(left), of(right), greater),
            Operator::Until { left, right, bounds } => self.until(Some(left), right, at, bounds),
            Operator::Eventually { left, bounds } => self.until(None, left, at, bounds),
            Operator::Always { left, bounds } => self.least(left, ahead::<FAULT>(at, bounds)),
            Operator::Since { left, right, bounds } => self.since(Some(left), right, at, bounds),
            Operator::Once { left, bounds } => self.since(None, left, at, bounds),
            Operator::Historically { left, bounds } => self.least(left, back::<FAULT>(at, bounds)),
            Operator::Somewhere { left, bounds } => around(distances, of(left), bounds, BOTTOM),
            Operator::Everywhere { left, bounds } => around(distances, of(left), bounds, TOP),
            Operator::Surround { left, right, .. }
            | Operator::SurroundOrIsland { left, right, .. } => {
                let network = Network { neighbours: sheet.neighbours(), distances };
                return network.surround::<FAULT>(operator, of(left), of(right));
            }
        };
        (row, 0)
    }

    /// The least over some samples.
    fn least(&self, line: usize, samples: RangeInclusive<usize>) -> Row {
        let top = vec![TOP; self.lines[line].1[0].len()];
        samples.fold(top, |row, time| each(&row, self.at(line, time), lesser))
    }

    /// With t' running from t upwards.
    fn until(&self, left: Option<usize>, right: usize, at: usize, bounds: Bounds) -> Row {
        let mut best = vec![BOTTOM; self.lines[right].1[0].len()];
        let mut held = vec![TOP; best.len()];
        let window = ahead::<FAULT>(at, bounds);
        for time in at..=*window.end() {
            if let Some(left) = left {
                held = each(&held, self.at(left, time), lesser);
            }
            if window.contains(&time) {
                best = each(&best, &each(&held, self.at(right, time), lesser), greater);
            }
        }
        best
    }

    /// With t' running from t downwards; the faults are the samples at which left
    /// has to hold.
    fn since(&self, left: Option<usize>, right: usize, at: usize, bounds: Bounds) -> Row {
        let window = back::<FAULT>(at, bounds);
        let mut best = vec![BOTTOM; self.lines[right].1[0].len()];
        let mut held = vec![TOP; best.len()];
        if let (Some(left), LEFT_OF_WHOLE_WINDOW) = (left, FAULT) {
            held = self.least(left, *window.start()..=at);
        }
        for time in (*window.start()..=at).rev() {
            let after = held.clone();
            if let Some(left) = left.filter(|_| FAULT != LEFT_BEFORE_NOW || time < at) {
                held = each(&held, self.at(left, time), lesser);
            }
            if window.contains(&time) {
                let offered = if FAULT == LEFT_AFTER_RIGHT { &after } else { &held };
                best = each(&best, &each(offered, self.at(right, time), lesser), greater);
            }
        }
        best
    }
}

/// The samples of a window ahead; the fault is that its last is left out.
fn ahead<const FAULT: u32>(at: usize, bounds: Bounds) -> RangeInclusive<usize> {
    let clipped = usize::from(FAULT == AHEAD_CLIPPED && bounds.lower < bounds.upper);
    at + bounds.lower as usize..=at + bounds.upper as usize - clipped
}

/// The samples of a window back; the fault is that its first is left out.
fn back<const FAULT: u32>(at: usize, bounds: Bounds) -> RangeInclusive<usize> {
    let clipped = usize::from(FAULT == BACK_CLIPPED && bounds.lower < bounds.upper);
    let first = at.saturating_sub(bounds.upper as usize) + clipped;
    first..=at.saturating_sub(bounds.lower as usize)
}

/// Everywhere folds from the top, somewhere from the bottom.
fn around(distances: &Distances, row: &Row, bounds: Bounds, nothing: Verdict) -> Row {
    let join = if nothing == TOP { lesser } else { greater };
    let at = |centre: usize| {
        let near = (0..row.len()).filter(|&place| distances.within(centre, place, bounds));
        near.fold(nothing, |value, place| join(value, row[place]))
    };
    (0..row.len()).map(at).collect()
}

/// An engine over this evaluator.
pub struct Trapped<const FAULT: u32>;

impl<const FAULT: u32> Engine for Trapped<FAULT> {
    fn judge(&self, sheet: &[u8], left: Filled) -> u64 {
        reference::judge::<Faulty<FAULT>>(sheet, left.distances, left.answer, left.result)
    }

    fn lookup(&self, answer: &[u8], line: u64, sample: u64, place: u64) -> u64 {
        Implementation.lookup(answer, line, sample, place)
    }
}
