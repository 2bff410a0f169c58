//! Places as the plain evaluator has them, and its surrounds, with the fault that it is told to make.

use super::evaluator::*;
use reference::distance::Distances;
use reference::margin::{Margin, Verdict};
use reference::sheet::{Bounds, Operator};

/// A value at a centre, with the rounds that it took.
type Settled = (Verdict, u64);

/// Places, as a surround sees them.
pub struct Network<'a> {
    pub neighbours: Vec<Vec<usize>>,
    pub distances: &'a Distances,
}

/// The masked signals around a centre.
struct Centre {
    place: usize,
    ball: Bounds,
    left: Row,
    right: Row,
}

impl Network<'_> {
    /// One sample of a surround at every place, and the rounds.
    pub fn surround<const FAULT: u32>(
        &self,
        operator: &Operator,
        left: &Row,
        right: &Row,
    ) -> (Row, u64) {
        let bounds = operator.bounds().unwrap_or(Bounds { lower: 0, upper: 0 });
        let ball = Bounds { lower: 0, ..bounds };
        let ring = if FAULT == UPPER_MASK { ball } else { bounds };
        let around = match FAULT {
            BOUNDARY_WITHOUT_LEFT => each(right, left, |right, left| lesser(right, not(left))),
            _ => right.clone(),
        };
        let settled = (0..left.len()).map(|place| {
            let left = masked(self.distances, place, left, ball);
            let right = masked(self.distances, place, &around, ring);
            let centre = Centre { place, ball, left, right };
            match operator {
                Operator::Surround { .. } => self.without_islands::<FAULT>(&centre),
                _ => self.plain::<FAULT>(&centre),
            }
        });
        let settled: Vec<Settled> = settled.collect();
        let rounds = settled.iter().map(|centre| centre.1).max();
        (settled.into_iter().map(|centre| centre.0).collect(), rounds.unwrap_or(0))
    }

    fn plain<const FAULT: u32>(&self, centre: &Centre) -> Settled {
        self.run::<FAULT>(centre.place, centre.left.clone(), &centre.right)
    }

    fn run<const FAULT: u32>(&self, place: usize, left: Row, right: &Row) -> Settled {
        let (row, rounds) = settle::<FAULT>(&self.neighbours, left, right);
        (row[place], rounds)
    }

    /// By runs, with the faults of code 7.
    fn without_islands<const FAULT: u32>(&self, centre: &Centre) -> Settled {
        let plain = self.plain::<FAULT>(centre);
        let places =
            (0..self.neighbours.len()).filter(|&place| self.has_run::<FAULT>(centre, place));
        let runs = places.map(|place| self.without::<FAULT>(centre, place));
        let runs: Vec<Settled> = runs.collect();
        let best = runs.iter().fold(BOTTOM, |best, run| greater(best, run.0));
        let rounds = runs.iter().map(|run| run.1).max().unwrap_or(0);
        let last = runs.last().map_or(BOTTOM, |run| run.0);
        let of_best = runs.iter().find(|run| run.0.margin == best.margin);
        match FAULT {
            ISLANDS_COUNTED => plain,
            ISLANDS_AT_ZERO if best.margin == Margin::Finite(0) => {
                (Verdict { yes: best.yes || plain.0.yes, ..best }, rounds)
            }
            LEAST_OF_RUNS if !runs.is_empty() => {
                (runs.iter().fold(TOP, |least, run| lesser(least, run.0)), rounds)
            }
            LAST_OF_RUNS => (last, rounds),
            ROUNDS_OF_PLAIN if !runs.is_empty() => (best, plain.1),
            ROUNDS_OF_BEST => (best, of_best.map_or(0, |run| run.1)),
            ROUND_OF_LONE => (best, rounds.max(1)),
            _ => (best, rounds),
        }
    }

    /// Whether a place is cut out in a run of its own.
    fn has_run<const FAULT: u32>(&self, centre: &Centre, place: usize) -> bool {
        let is_other = place != centre.place;
        let is_reached = self.distances.between(centre.place, place).is_some();
        match FAULT {
            // A lone place stays without a run, which is another fault.
            RUN_OF_CENTRE => is_reached && !self.neighbours[centre.place].is_empty(),
            RUNS_OF_BALL => is_other && self.distances.within(centre.place, place, centre.ball),
            RUNS_OF_ALL => is_other,
            RUNS_TOWARDS => is_other && self.distances.between(place, centre.place).is_some(),
            RUNS_OF_NEIGHBOURS => self.neighbours[centre.place].contains(&place),
            _ => is_other && is_reached,
        }
    }

    /// The run with a place cut out.
    fn without<const FAULT: u32>(&self, centre: &Centre, place: usize) -> Settled {
        let (mut left, mut right) = (centre.left.clone(), centre.right.clone());
        if FAULT != RIGHT_CUT_OUT {
            left[place] = BOTTOM;
        }
        if FAULT == RIGHT_CUT_OUT || FAULT == BOTH_CUT_OUT {
            right[place] = BOTTOM;
        }
        self.run::<FAULT>(centre.place, left, &right)
    }
}

fn masked(distances: &Distances, centre: usize, row: &Row, bounds: Bounds) -> Row {
    let value = |(place, &value): (usize, &Verdict)| {
        if distances.within(centre, place, bounds) {
            value
        } else {
            BOTTOM
        }
    };
    row.iter().enumerate().map(value).collect()
}

/// Steps until neither margins nor verdicts change; rounds are counted while
/// margins do.
fn settle<const FAULT: u32>(neighbours: &[Vec<usize>], left: Row, right: &Row) -> (Row, u64) {
    let differs = |pair: (&Verdict, &Verdict)| pair.0.margin != pair.1.margin;
    let mut row = left;
    let mut rounds = 1;
    loop {
        let next = step::<FAULT>(neighbours, &row, right);
        rounds += u64::from(next.iter().zip(&row).any(differs));
        if next == row || FAULT == ONE_ROUND {
            break (next, rounds);
        }
        row = next;
    }
}

fn step<const FAULT: u32>(neighbours: &[Vec<usize>], row: &Row, right: &Row) -> Row {
    let mut next = row.clone();
    for (place, around) in neighbours.iter().enumerate() {
        let former = if FAULT == IN_PLACE { &next } else { row };
        let offers = around.iter().map(|&other| greater(former[other], right[other]));
        let value = offers.fold(former[place], lesser);
        next[place] = value;
    }
    next
}
