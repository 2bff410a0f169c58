//! Sheets as large as they can be: of as many words, and of as many places.
//!
//! Their lines are always the same, so that each has until, somewhere, both
//! surrounds and since over all of it. The surround without islands has few places
//! in each ball, as it makes a run for each.

use super::random::Random;
use super::valid::{front, recorded, Numbers};
use super::{network, runs};
use crate::layout::{MOST_PLACES, MOST_WIDE_PLACES};
use crate::road::Road;
use crate::sheet::{GREATEST_WEIGHT, MOST_SAMPLES, MOST_SIGNALS};

/// The most places in a ball of code 7 on the largest sheet, the centre included.
const PLACES_IN_BALL: usize = 3;

/// The words of a sheet with signals and samples at their limits and 64 places,
/// of either layout, a million words long.
pub fn sheet(random: &mut Random) -> Vec<u32> {
    let roads = network::roads_in_circles(random, MOST_PLACES);
    let numbers = Numbers::Small;
    let readings = numbers.draw_all(random, MOST_PLACES * MOST_SIGNALS * MOST_SAMPLES);
    let near = twice_the_longest(&roads);
    let nearest = runs::widest_of(MOST_PLACES, &roads, PLACES_IN_BALL);
    let last_signal = MOST_SIGNALS as u32 - 1;
    let front = front(random, MOST_PLACES, MOST_SIGNALS, MOST_SAMPLES);
    recorded(&front, &roads, &readings)
        .at_least(0, numbers.draw(random))
        .at_most(last_signal, numbers.draw(random))
        .bounded(5, 0, 1, (1, random.field(1, 9)))
        .bounded(6, 1, 0, (1, near))
        .bounded(15, 0, 3, (0, near))
        .bounded(7, 0, 3, (0, nearest))
        .bounded(12, 0, 1, (1, random.field(1, 9)))
        .end()
}

/// The words of a wide sheet with as many places as there can be, and two samples:
/// its answer and above all its distances are large enough. Within the length of
/// the shortest road there are few places, but for the middle of a star.
pub fn city(random: &mut Random) -> Vec<u32> {
    const SAMPLES: usize = 2;
    let roads = network::roads(random, MOST_WIDE_PLACES);
    let numbers = random.pick(&[Numbers::Ties, Numbers::Small, Numbers::Any]);
    let readings = numbers.draw_all(random, MOST_WIDE_PLACES * SAMPLES);
    let near = twice_the_longest(&roads);
    let nearest = roads.iter().map(|road| road.weight).min().unwrap_or(1);
    recorded(&front(random, MOST_WIDE_PLACES, 1, SAMPLES), &roads, &readings)
        .at_least(0, numbers.draw(random))
        .at_most(0, numbers.draw(random))
        .bounded(5, 0, 1, (0, 1))
        .bounded(6, 1, 0, (1, near))
        .bounded(15, 0, 3, (0, near))
        .bounded(7, 0, 1, (0, nearest))
        .bounded(12, 0, 1, (1, 1))
        .end()
}

/// A bound that a place's neighbours are all within, and mostly theirs too.
fn twice_the_longest(roads: &[Road]) -> u32 {
    let longest = roads.iter().map(|road| road.weight).max();
    longest.map_or(1, |weight| (2 * weight).min(GREATEST_WEIGHT))
}
