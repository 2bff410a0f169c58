//! Sheets whose surrounds take many rounds.
//!
//! Scattered numbers settle within a few rounds. Here the places form one path,
//! what is lowest stands at one of its ends, and right is too low to stop it, so
//! that it wanders from place to place, one a round. It wanders against the
//! direction of roads, so those that run one way all lead to that end.

use super::layout;
use super::random::Random;
use super::table::{WITHOUT_ISLANDS, WITH_ISLANDS};
use crate::builder::SheetBuilder;
use crate::layout::MOST_PLACES;
use crate::road::{Direction, Road};
use std::collections::BTreeMap;

/// A sheet on a path of up to so many places. In one half of them margins
/// wander, in the other half verdicts, which no rounds count.
pub fn sheet(random: &mut Random, most_places: usize) -> Vec<u32> {
    if random.chance(50) {
        wandering_margins(random, most_places)
    } else {
        wandering_verdicts(random, most_places)
    }
}

/// The first of two surrounds takes as many rounds as there are places, none
/// where it is one of code 7 and there is one place. In a run of code 7 the place
/// that is cut out brings right, lower than all of left, down the path.
pub fn wandering_margins(random: &mut Random, most_places: usize) -> Vec<u32> {
    let way = Way::drawn(random, most_places);
    let lowest = random.between(-3, 3) as i32;
    let numbers = |random: &mut Random, step: usize| {
        let above = if step == 0 { 0 } else { random.field(1, 9) as i32 };
        (lowest + above, random.field(20, 40) as i32)
    };
    way.path(random, numbers)
        .at_least(0, 0)
        .at_most(1, 0)
        .bounded(way.codes.0, 0, 1, way.far)
        .bounded(way.codes.1, 0, 1, way.near)
        .end()
}

/// Margins of 0 with both verdicts: a no wanders over the path, while margins
/// rest from the start, or soon where some are above 0. For code 7 the path's
/// last place has a right that is a yes, so that with this place cut out there
/// is a region to wander over.
pub fn wandering_verdicts(random: &mut Random, most_places: usize) -> Vec<u32> {
    let mut way = Way::drawn(random, most_places);
    if way.codes.0 == WITHOUT_ISLANDS {
        // From every place a way leads to the last.
        way.one_way = 0;
    }
    let above = random.pick(&[0, 0, 10, 30]);
    let last = way.order.len() - 1;
    let numbers = |random: &mut Random, step: usize| {
        let first = if random.chance(above) { random.field(1, 3) as i32 } else { 0 };
        let is_around = way.codes.0 == WITHOUT_ISLANDS && step == last;
        (if is_around { -1 } else { first }, i32::from(step > 0))
    };
    // Line 3 is left: no 0 at the path's first place, and a yes at the others.
    // Line 4 is right: no, nowhere above 0. What is around is no -1 and yes 1.
    way.path(random, numbers)
        .at_least(0, 0)
        .at_most(1, 0)
        .line(3, 1, 0)
        .line(4, 0, 2)
        .line(3, 0, 0)
        .bounded(way.codes.0, 3, 4, way.far)
        .bounded(way.codes.1, 3, 4, way.near)
        .end()
}

/// A path, and the two surrounds on it.
struct Way {
    /// All places, in the order in which the path visits them.
    order: Vec<u32>,
    /// Of a hundred roads so many lead to the path's first place alone.
    one_way: usize,
    samples: u32,
    codes: (u32, u32),
    /// Bounds that hold the whole path.
    far: (u32, u32),
    /// Any others.
    near: (u32, u32),
}

impl Way {
    fn drawn(random: &mut Random, most_places: usize) -> Self {
        let order = places_in_order(random, most_places);
        let far = 3 * order.len() as u32;
        let (codes, samples) = codes_and_samples(random, order.len());
        let nearer = random.pick(&[far + 4, far / 4 + 4]);
        let near = (random.field(0, 4), random.field(4, nearer));
        let one_way = random.pick(&[0, 0, 50, 100]);
        Way { order, one_way, samples, codes, far: (0, far), near }
    }

    /// Roads that join each place to the next, and two numbers for each place by
    /// its step on the path, at every sample.
    fn path(
        &self,
        random: &mut Random,
        numbers: impl Fn(&mut Random, usize) -> (i32, i32),
    ) -> SheetBuilder {
        let layout = layout(random, self.order.len());
        let sheet = SheetBuilder::laid_out(layout, self.order.len() as u32, 2, self.samples);
        let sheet = self.roads(random).iter().fold(sheet, SheetBuilder::with_road);
        let samples = 0..self.samples;
        let numbers: Vec<i32> =
            samples.flat_map(|_| sample(random, &self.order, &numbers)).collect();
        sheet.samples(&numbers)
    }

    /// Roads from each place to the one before, as a sheet wants them: the pairs
    /// rising.
    fn roads(&self, random: &mut Random) -> Vec<Road> {
        let mut roads = BTreeMap::new();
        for pair in self.order.windows(2) {
            let mut road = Road::one_way(pair[1] as usize, pair[0] as usize, random.field(1, 3));
            if !random.chance(self.one_way) {
                road.direction = Direction::BothWays;
            }
            roads.insert((road.first, road.second), road);
        }
        roads.into_values().collect()
    }
}

/// The codes of the two surrounds, and how many samples there are. Code 7 makes
/// a run for every place of the path, each of as many rounds: on a long path only
/// the first surround has it, now and then, and a single sample. Beyond 64 places
/// no surround has it.
fn codes_and_samples(random: &mut Random, places: usize) -> ((u32, u32), u32) {
    const BOTH: [u32; 2] = [WITHOUT_ISLANDS, WITH_ISLANDS];
    let samples = random.pick(&[1, 2, 3, 16, 17, 33]);
    match places {
        0..=12 => ((random.pick(&BOTH), random.pick(&BOTH)), samples),
        _ if places > MOST_PLACES => ((WITH_ISLANDS, WITH_ISLANDS), 1),
        _ if random.chance(30) => ((WITHOUT_ISLANDS, WITH_ISLANDS), 1),
        _ => ((WITH_ISLANDS, WITH_ISLANDS), samples),
    }
}

/// All places, in a random order. A city that is wandered through costs a lot, so
/// few are.
fn places_in_order(random: &mut Random, most_places: usize) -> Vec<u32> {
    let narrow = most_places.min(MOST_PLACES);
    let any = random.count(1, narrow);
    let city = random.count(narrow, most_places);
    let places = if random.chance(10) { city } else { random.pick(&[any, any, narrow]) };
    let mut order: Vec<u32> = (0..places as u32).collect();
    random.shuffle(&mut order);
    order
}

fn sample(
    random: &mut Random,
    order: &[u32],
    numbers: impl Fn(&mut Random, usize) -> (i32, i32),
) -> Vec<i32> {
    let mut sample = vec![0; 2 * order.len()];
    for (step, &place) in order.iter().enumerate() {
        let (first, second) = numbers(random, step);
        sample[2 * place as usize] = first;
        sample[2 * place as usize + 1] = second;
    }
    sample
}
