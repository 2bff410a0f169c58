//! The sheets of more than 64 places that are timed, and the smallest sheet.

use reference::builder::SheetBuilder;
use reference::generate::random::Random;
use reference::road::Road;

/// The places of a side of the square city: 1,024 in all.
const SIDE: u32 = 32;

/// As many places as there can be.
const PLACES: u32 = SIDE * SIDE;

/// The code of the surround with islands, which makes one run for each centre.
const WITH_ISLANDS: u32 = 15;

/// A grid of two by two places with one sample and one line, an atom: hardly more
/// than what a call costs.
pub fn tiny() -> Vec<u32> {
    let roads = grid_roads(2).map(both_ways);
    let sheet = with_roads(SheetBuilder::new(4, 1, 1), roads);
    sheet.samples(&[3, -1, 4, -1]).at_least(0, 0).end()
}

/// The 32×32 grid with roads of weight 1, so many samples of one signal, and one
/// surround of what is high by what is low.
pub fn surround(samples: u32, bounds: (u32, u32)) -> Vec<u32> {
    surround_on(grid_roads(SIDE).map(both_ways), samples, bounds)
}

/// The same on streets that run one way, each against the next beside it: a long way
/// leads back to a neighbour, and every place can be reached.
pub fn surround_on_streets(samples: u32, bounds: (u32, u32)) -> Vec<u32> {
    surround_on(grid_roads(SIDE).map(street), samples, bounds)
}

fn surround_on(roads: impl Iterator<Item = Road>, samples: u32, bounds: (u32, u32)) -> Vec<u32> {
    let mut random = Random::new(1024);
    let sheet = with_roads(SheetBuilder::wide(PLACES, 1, samples), roads);
    let numbers = (0..samples * PLACES).map(|_| random.between(-50, 50) as i32);
    sheet
        .samples(&numbers.collect::<Vec<i32>>())
        .at_least(0, -30)
        .at_most(0, 20)
        .bounded(WITH_ISLANDS, 0, 1, bounds)
        .end()
}

/// All 523,776 roads between 1,024 places, one sample, and one line that is true:
/// nothing but distances takes time.
pub fn full_graph() -> Vec<u32> {
    let mut random = Random::new(523_776);
    let pairs =
        (0..PLACES).flat_map(|first| (first + 1..PLACES).map(move |second| (first, second)));
    let sheet = pairs.fold(SheetBuilder::wide(PLACES, 1, 1), |sheet, (first, second)| {
        sheet.road(first, second, random.field(1, 1000))
    });
    sheet.samples(&[0; PLACES as usize]).truth().end()
}

/// The roads of a square grid, from each place to the one on its right and the one
/// below.
pub fn grid_roads(side: u32) -> impl Iterator<Item = (u32, u32)> {
    (0..side * side).flat_map(move |place| {
        let right = (place % side + 1 < side).then_some((place, place + 1));
        let below = (place / side + 1 < side).then_some((place, place + side));
        right.into_iter().chain(below)
    })
}

fn with_roads(sheet: SheetBuilder, roads: impl Iterator<Item = Road>) -> SheetBuilder {
    roads.fold(sheet, |sheet, road| sheet.with_road(&road))
}

fn both_ways((first, second): (u32, u32)) -> Road {
    Road::both_ways(first as usize, second as usize, 1)
}

/// A road of the square city that runs one way: in every second row from left to
/// right, the first among them, and in every second column downwards, the last among
/// them, so that the outermost streets form a circle.
fn street((first, second): (u32, u32)) -> Road {
    let is_in_row = second == first + 1;
    let is_forth = if is_in_row { (first / SIDE).is_multiple_of(2) } else { first % SIDE % 2 == 1 };
    let (first, second) = (first as usize, second as usize);
    if is_forth {
        Road::one_way(first, second, 1)
    } else {
        Road::one_way(second, first, 1)
    }
}
