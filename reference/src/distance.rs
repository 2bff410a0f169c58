//! Distances of places. This part knows nothing of formulas.

use crate::road::Road;
use crate::sheet::Bounds;
use std::cmp::Reverse;
use std::collections::BinaryHeap;

/// The entry of the lent distance table where no path leads: 2^64 - 1.
pub const NO_DISTANCE: u64 = u64::MAX;

/// The distances of all pairs of places, there and back: "distance is measured from
/// the centre (the table's row) along allowed directions".
#[derive(Clone, Debug, PartialEq, Eq)]
pub struct Distances {
    places: usize,
    /// Row by row, each from its place, [`NO_DISTANCE`] where no path leads.
    table: Vec<u64>,
}

impl Distances {
    /// The distances that roads make between so many places.
    pub fn new(places: usize, roads: &[Road]) -> Self {
        let network = Network::new(places, roads);
        let rows = (0..places).flat_map(|from| network.distances_from(from));
        Distances { places, table: rows.collect() }
    }

    /// How many places there are.
    pub fn places(&self) -> usize {
        self.places
    }

    /// "The distance of two places is the least sum of weights on a path", here one
    /// that leads from the one to the other; nothing if there is none.
    pub fn between(&self, from: usize, to: usize) -> Option<u64> {
        let entry = self.table[from * self.places + to];
        (entry != NO_DISTANCE).then_some(entry)
    }

    /// Whether `to` lies within the bounds of `from`, the centre; "unconnected places
    /// have no distance and lie in no range".
    pub fn within(&self, from: usize, to: usize, bounds: Bounds) -> bool {
        let range = u64::from(bounds.lower)..=u64::from(bounds.upper);
        self.between(from, to).is_some_and(|distance| range.contains(&distance))
    }

    /// The entries of the lent table: "n·n distances row by row, 2^64 - 1 for
    /// none".
    pub fn entries(&self) -> impl Iterator<Item = u64> + '_ {
        self.table.iter().copied()
    }
}

/// A way from a place along one road, of few bytes: a full network of 1,024 places
/// has a million of them, which are gone through from each place.
struct Way {
    to: u32,
    weight: u32,
}

/// For each place the ways from it.
struct Network {
    ways: Vec<Vec<Way>>,
}

impl Network {
    fn new(places: usize, roads: &[Road]) -> Self {
        let mut ways: Vec<Vec<Way>> = (0..places).map(|_| Vec::new()).collect();
        for road in roads {
            for (from, to) in road.ways() {
                ways[from].push(Way { to: to as u32, weight: road.weight });
            }
        }
        Network { ways }
    }

    /// The distances from one place, by Dijkstra: of the places found so far the
    /// nearest is left next. "A place is at distance 0 from itself by the empty
    /// path."
    fn distances_from(&self, from: usize) -> Vec<u64> {
        let mut row = vec![NO_DISTANCE; self.ways.len()];
        let mut found = BinaryHeap::from([Reverse((0, from))]);
        row[from] = 0;
        while let Some(Reverse((distance, place))) = found.pop() {
            // A place may have been found anew by a shorter path since.
            if distance == row[place] {
                self.leave(place, &mut row, &mut found);
            }
        }
        row
    }

    /// Goes every way from a place, whose distance is settled.
    fn leave(&self, place: usize, row: &mut [u64], found: &mut BinaryHeap<Reverse<(u64, usize)>>) {
        let so_far = row[place];
        for &Way { to, weight } in &self.ways[place] {
            let (to, distance) = (to as usize, so_far + u64::from(weight));
            if distance < row[to] {
                row[to] = distance;
                found.push(Reverse((distance, to)));
            }
        }
    }
}

#[cfg(test)]
mod tests {
    use super::*;

    fn road(first: usize, second: usize, weight: u32) -> Road {
        Road::both_ways(first, second, weight)
    }

    #[test]
    fn the_shortest_path_counts() {
        let distances = Distances::new(3, &[road(0, 1, 5), road(0, 2, 1), road(1, 2, 1)]);
        let entries: Vec<u64> = distances.entries().collect();
        assert_eq!(entries, [0, 2, 1, 2, 0, 1, 1, 1, 0]);
    }

    /// The same roads, but for the last, which leads from 2 to 1 alone: back from 1
    /// only the long road is left.
    #[test]
    fn the_shortest_path_along_allowed_directions_counts() {
        let roads = [road(0, 1, 5), road(0, 2, 1), Road::one_way(2, 1, 1)];
        let entries: Vec<u64> = Distances::new(3, &roads).entries().collect();
        assert_eq!(entries, [0, 2, 1, 5, 0, 6, 1, 1, 0]);
    }

    /// Once round, and back only by the whole circle.
    #[test]
    fn a_circle_that_runs_one_way_round() {
        let roads = [Road::one_way(0, 1, 1), Road::one_way(2, 0, 10), Road::one_way(1, 2, 4)];
        let entries: Vec<u64> = Distances::new(3, &roads).entries().collect();
        assert_eq!(entries, [0, 1, 5, 14, 0, 4, 10, 11, 0]);
    }

    #[test]
    fn unconnected_places_lie_in_no_range() {
        let distances = Distances::new(2, &[]);
        let all = Bounds { lower: 0, upper: (1 << 28) - 1 };
        assert_eq!(distances.between(0, 1), None);
        assert!(!distances.within(0, 1, all));
        assert!(distances.within(0, 0, all));
        let entries: Vec<u64> = distances.entries().collect();
        assert_eq!(entries, [0, NO_DISTANCE, NO_DISTANCE, 0]);
    }

    #[test]
    fn long_paths_pass_32_bits() {
        let weight = (1 << 28) - 1;
        let roads: Vec<Road> = (1..64).map(|place| road(place - 1, place, weight)).collect();
        let distances = Distances::new(64, &roads);
        assert_eq!(distances.between(63, 0), Some(63 * u64::from(weight)));
    }

    #[test]
    fn a_path_of_1024_places() {
        let weight = (1 << 28) - 1;
        let roads: Vec<Road> = (1..1024).map(|place| road(place - 1, place, weight)).collect();
        let distances = Distances::new(1024, &roads);
        assert_eq!(distances.between(0, 1023), Some(274_609_470_465));
    }
}
