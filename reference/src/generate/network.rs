//! Networks of many shapes.

use super::random::Random;
use crate::layout::MOST_PLACES;
use crate::road::{Direction, Road};
use crate::sheet::GREATEST_WEIGHT;
use std::collections::BTreeMap;

#[derive(Clone, Copy)]
enum Shape {
    Unconnected,
    Path,
    Ring,
    Star,
    Grid,
    Full,
    Tree,
    Sparse,
    Split,
}

#[derive(Clone, Copy)]
enum Weights {
    Ones,
    Small,
    Huge,
    Any,
}

/// Which ways the roads of a network run.
#[derive(Clone, Copy)]
enum Traffic {
    BothWays,
    /// One in five runs one way only.
    Few,
    /// A third run both ways, and a third each way.
    Mixed,
    /// Each runs one way or the other.
    OneWay,
    /// Each one way, from place to place as the shape is built, and from the last
    /// place to the first: a ring is a circle that runs one way round.
    Along,
}

/// Half of the networks have no road that runs one way only.
const TRAFFICS: [Traffic; 8] = [
    Traffic::BothWays,
    Traffic::BothWays,
    Traffic::BothWays,
    Traffic::BothWays,
    Traffic::Few,
    Traffic::Mixed,
    Traffic::OneWay,
    Traffic::Along,
];

const SHAPES: [Shape; 9] = [
    Shape::Unconnected,
    Shape::Path,
    Shape::Ring,
    Shape::Star,
    Shape::Grid,
    Shape::Full,
    Shape::Tree,
    Shape::Sparse,
    Shape::Split,
];

/// The shapes of networks beyond 64 places: full ones would have too many roads.
const CITY_SHAPES: [Shape; 8] = [
    Shape::Unconnected,
    Shape::Path,
    Shape::Ring,
    Shape::Star,
    Shape::Grid,
    Shape::Tree,
    Shape::Sparse,
    Shape::Split,
];

const WEIGHTS: [Weights; 4] = [Weights::Ones, Weights::Small, Weights::Huge, Weights::Any];

/// The roads of a random network, in the order a sheet wants them.
pub fn roads(random: &mut Random, places: usize) -> Vec<Road> {
    let shapes = if places > MOST_PLACES { &CITY_SHAPES[..] } else { &SHAPES[..] };
    let shape = random.pick(shapes);
    shaped(random, shape, places)
}

/// The roads of a network in which one can go round in circles, if it has three
/// places or more.
pub fn roads_in_circles(random: &mut Random, places: usize) -> Vec<Road> {
    let shape = random.pick(&[Shape::Ring, Shape::Full, Shape::Split]);
    shaped(random, shape, places)
}

fn shaped(random: &mut Random, shape: Shape, places: usize) -> Vec<Road> {
    let (weights, traffic) = (random.pick(&WEIGHTS), random.pick(&TRAFFICS));
    let mut names: Vec<usize> = (0..places).collect();
    if random.chance(60) {
        random.shuffle(&mut names);
    }
    let mut roads = BTreeMap::new();
    for (a, b) in pairs(random, shape, places) {
        let (from, to) = if b == 0 && a + 1 == places { (a, b) } else { (b, a) };
        let along = Road::one_way(names[from], names[to], weight(random, weights));
        let direction = direction(random, traffic, along.direction);
        roads.insert((along.first, along.second), Road { direction, ..along });
    }
    roads.into_values().collect()
}

/// The direction of a road, given that which leads along the shape.
fn direction(random: &mut Random, traffic: Traffic, along: Direction) -> Direction {
    let one_way = [Direction::FirstToSecond, Direction::SecondToFirst];
    match traffic {
        Traffic::BothWays => Direction::BothWays,
        Traffic::Few if random.chance(80) => Direction::BothWays,
        Traffic::Mixed => random.pick(&Direction::ALL),
        Traffic::Few | Traffic::OneWay => random.pick(&one_way),
        Traffic::Along => along,
    }
}

/// The pairs that a shape joins, the lower place second.
fn pairs(random: &mut Random, shape: Shape, places: usize) -> Vec<(usize, usize)> {
    let (widest, densest) = if places > MOST_PLACES { (32, 3) } else { (8, 60) };
    let width = random.count(1, widest);
    let density = random.count(1, densest);
    let all = (0..places).flat_map(|a| (0..a).map(move |b| (a, b)));
    let joined = |&(a, b): &(usize, usize)| match shape {
        Shape::Unconnected => false,
        Shape::Path => a == b + 1,
        Shape::Ring => a == b + 1 || (b == 0 && a + 1 == places),
        Shape::Star => b == 0,
        Shape::Grid => a == b + width || (a == b + 1 && a % width != 0),
        Shape::Full => true,
        Shape::Tree => (a - 1) / 2 == b,
        Shape::Sparse => random.chance(density),
        Shape::Split => (a < places / 2) == (b < places / 2) && a <= b + 2,
    };
    all.filter(joined).collect()
}

fn weight(random: &mut Random, weights: Weights) -> u32 {
    match weights {
        Weights::Ones => 1,
        Weights::Small => random.field(1, 4),
        Weights::Huge => random.field(GREATEST_WEIGHT - 1, GREATEST_WEIGHT),
        Weights::Any => random.field(1, GREATEST_WEIGHT),
    }
}
