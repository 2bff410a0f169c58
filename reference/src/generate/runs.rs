//! How far a line of code 7 may look.
//!
//! At every sample and centre it makes a run for each place within its upper
//! bound. On a large sheet that would take longer than thousands of small ones,
//! and show no more.

use super::random::Random;
use crate::distance::Distances;
use crate::road::Road;
use crate::sheet::GREATEST_WEIGHT;

/// The steps of places and roads that a line may cost, each run taken for one
/// round: mostly, and now and then.
const FEW_STEPS: usize = 300_000;
const MANY_STEPS: usize = 10_000_000;

/// The greatest upper bound of a line of code 7 that does not cost too much on a
/// sheet of so many places and samples. Many of both leave few steps for hardly
/// any run, so they have many steps more often.
pub fn widest(random: &mut Random, places: usize, samples: usize, roads: &[Road]) -> u32 {
    let often = if places > 16 && samples > 16 { 25 } else { 10 };
    let steps = if random.chance(often) { MANY_STEPS } else { FEW_STEPS };
    let steps_of_run = places * samples * (places + 2 * roads.len());
    let runs = steps / steps_of_run;
    if runs < places {
        widest_of(places, roads, runs + 1)
    } else {
        GREATEST_WEIGHT
    }
}

/// The greatest bound within which no place has more than so many places, itself
/// among them; at least one.
pub fn widest_of(places: usize, roads: &[Road], most: usize) -> u32 {
    let distances = Distances::new(places, roads);
    // The nearest place that must not be within the bound is at least 1 away.
    let beyond = |centre: usize| {
        let mut row: Vec<u64> =
            (0..places).filter_map(|to| distances.between(centre, to)).collect();
        row.sort();
        row.get(most).map(|distance| distance - 1)
    };
    let least = (0..places).filter_map(beyond).min();
    least.map_or(GREATEST_WEIGHT, |bound| bound.min(GREATEST_WEIGHT.into()) as u32)
}

#[cfg(test)]
mod tests {
    use super::*;

    fn path() -> [Road; 3] {
        [(0, 1, 5), (1, 2, 1), (2, 3, 2)]
            .map(|(from, to, weight)| Road::both_ways(from, to, weight))
    }

    /// From place 1 the others are at 1, 3 and 5, from place 2 at 1, 2 and 6.
    #[test]
    fn balls_hold_no_more_than_asked_for() {
        assert_eq!(widest_of(4, &path(), 1), 0);
        assert_eq!(widest_of(4, &path(), 2), 1);
        assert_eq!(widest_of(4, &path(), 3), 4);
        assert_eq!(widest_of(4, &path(), 4), GREATEST_WEIGHT);
        assert_eq!(widest_of(4, &[], 1), GREATEST_WEIGHT);
    }

    /// From 0 the others are at 5, 6 and 8, from 1 at 1 and 3, from 2 at 2, and from 3
    /// nowhere.
    #[test]
    fn balls_go_along_allowed_directions() {
        let one_way = path().map(|road| Road::one_way(road.first, road.second, road.weight));
        let widest = [1, 2, 3, 4].map(|most| widest_of(4, &one_way, most));
        assert_eq!(widest, [0, 2, 7, GREATEST_WEIGHT]);
    }

    #[test]
    fn small_sheets_have_no_limit() {
        assert_eq!(widest(&mut Random::new(1), 4, 8, &path()), GREATEST_WEIGHT);
    }
}
