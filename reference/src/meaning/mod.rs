//! Evaluation by the definitions, to the letter.
//!
//! Verdicts follow the Boolean semantics (Definition 3.1, [`boolean`]), margins
//! the quantitative one (Definition 3.4, [`quantitative`]), each from the
//! operands' verdicts and margins alone. A surround tries all 2^n regions, so
//! networks should not have more than about a dozen places.

pub(crate) mod boolean;
pub(crate) mod quantitative;
mod regions;
pub mod rounds;

use crate::distance::Distances;
use crate::evaluation::Evaluation;
use crate::margin::{Margin, Verdict};
use crate::sheet::{Bounds, Line, Operator, Sheet};
use regions::{Region, Way};

/// The verdicts of a sheet by the definitions.
pub struct Meaning {
    lines: Vec<Verdicts>,
    rounds: u64,
}

impl Evaluation for Meaning {
    fn evaluate(sheet: &Sheet, distances: &Distances) -> Self {
        let ways = sheet.ways().collect();
        let neighbours = sheet.neighbours();
        let mut world = World { sheet, distances, ways, neighbours, lines: Vec::new() };
        let mut rounds = 0;
        for line in &sheet.lines {
            rounds = rounds.max(rounds::of_line(&world, line));
            let verdicts = verdicts(&world, line);
            world.lines.push(verdicts);
        }
        Meaning { lines: world.lines, rounds }
    }

    fn verdict(&self, line: usize, sample: usize, place: usize) -> Verdict {
        self.lines[line].at(sample, place)
    }

    fn rounds(&self) -> u64 {
        self.rounds
    }
}

/// The verdicts of a line from its first sample on, "sample outermost, then
/// place".
struct Verdicts {
    first: usize,
    places: usize,
    all: Vec<Verdict>,
}

impl Verdicts {
    /// The verdict at a sample of the recording.
    fn at(&self, sample: usize, place: usize) -> Verdict {
        self.all[(sample - self.first) * self.places + place]
    }
}

/// What a formula may look at: the sheet, the distances, and the verdicts of
/// the lines before it.
struct World<'a> {
    sheet: &'a Sheet,
    distances: &'a Distances,
    /// From where to where roads lead, of which boundaries are made.
    ways: Vec<Way>,
    /// For each place those to which a road leads, over which rounds are counted.
    neighbours: Vec<Vec<usize>>,
    lines: Vec<Verdicts>,
}

impl World<'_> {
    fn places(&self) -> usize {
        self.sheet.head.places
    }

    /// An earlier line's verdict.
    fn yes(&self, line: usize, sample: usize, place: usize) -> bool {
        self.lines[line].at(sample, place).yes
    }

    /// An earlier line's margin.
    fn margin(&self, line: usize, sample: usize, place: usize) -> Margin {
        self.lines[line].at(sample, place).margin
    }

    /// The places within bounds of a centre.
    fn range(&self, centre: usize, bounds: Bounds) -> impl Iterator<Item = usize> + '_ {
        (0..self.places()).filter(move |&place| self.distances.within(centre, place, bounds))
    }
}

/// Where a formula is looked at: the sample, the place, and for a surround the
/// regions that its code allows there (no formula of another code asks for them).
struct Point<'a> {
    sample: usize,
    place: usize,
    regions: &'a [Region],
}

/// All verdicts of a line.
fn verdicts(world: &World, line: &Line) -> Verdicts {
    let regions: Vec<Vec<Region>> =
        (0..world.places()).map(|centre| allowed_regions(world, &line.operator, centre)).collect();
    let mut all = Vec::new();
    for sample in line.extent.samples() {
        for (place, regions) in regions.iter().enumerate() {
            let point = Point { sample, place, regions };
            all.push(Verdict {
                yes: boolean::holds(world, &line.operator, &point),
                margin: quantitative::margin(world, &line.operator, &point),
            });
        }
    }
    Verdicts { first: line.extent.first, places: world.places(), all }
}

/// The regions of a surround at one centre. They do not depend on the sample,
/// so they are enumerated once. "For code 7 a region with an empty boundary no
/// longer counts"; code 15 has "the former reading".
fn allowed_regions(world: &World, operator: &Operator, centre: usize) -> Vec<Region> {
    let allowed = |bounds| regions::allowed(&world.ways, world.distances, centre, bounds);
    match *operator {
        Operator::Surround { bounds, .. } => {
            let mut regions = allowed(bounds);
            regions.retain(|region| !region.is_island());
            regions
        }
        Operator::SurroundOrIsland { bounds, .. } => allowed(bounds),
        _ => Vec::new(),
    }
}
