//! Sheets on which it matters whether an island is surrounded.
//!
//! On small networks, often of several components, few numbers make many ties,
//! with both verdicts at margin 0. A surround without islands stands alone, so
//! that the rounds are its own, or beside the same with islands.

use super::network;
use super::random::Random;
use super::table::{self, WITHOUT_ISLANDS, WITH_ISLANDS};
use super::ties::{self, Recording};
use crate::sheet::GREATEST_WEIGHT;

/// Every place but the centre itself, which then has nothing to offer: were it cut
/// out, the most rounds would follow.
const ALL_AROUND: (u32, u32) = (1, GREATEST_WEIGHT);

/// A sheet of up to so many places, eight at most.
pub fn sheet(random: &mut Random, most_places: usize) -> Vec<u32> {
    let places = random.count(1, most_places.min(8));
    let roads = network::roads(random, places);
    let weights: Vec<u32> = roads.iter().map(|road| road.weight).collect();
    let codes: &[u32] = match random.below(4) {
        0 | 1 => &[WITHOUT_ISLANDS],
        2 => &[WITHOUT_ISLANDS, WITH_ISLANDS],
        _ => &[WITH_ISLANDS],
    };
    let any = table::distance_bounds(random, &weights);
    let bounds = random.pick(&[any, any, ALL_AROUND]);
    let (left, right) = (ties::line(random), ties::line(random));
    let samples = random.count(1, 3);
    let size = random.pick(&[0, 0, 1, 1, 3, 20]);
    let recording = Recording { places, roads: &roads, samples, numbers: (-size, size) };
    let sheet = recording.lines(random);
    codes.iter().fold(sheet, |sheet, &code| sheet.bounded(code, left, right, bounds)).end()
}
