//! Regions and their outer boundaries.

use crate::distance::Distances;
use crate::sheet::Bounds;

/// A set of places: place p is in it when bit p is set.
pub type Places = u64;

/// From where to where a road leads.
pub type Way = (usize, usize);

/// A region A with its outer boundary.
#[derive(Clone, Copy, Debug, PartialEq, Eq)]
pub struct Region {
    members: Places,
    boundary: Places,
}

impl Region {
    /// The places of the region.
    pub fn members(&self) -> impl Iterator<Item = usize> {
        places_of(self.members)
    }

    /// The places of its outer boundary; "a boundary may be empty".
    pub fn boundary(&self) -> impl Iterator<Item = usize> {
        places_of(self.boundary)
    }

    /// Whether nothing is around it.
    pub fn is_island(&self) -> bool {
        self.boundary().next().is_none()
    }
}

/// All regions that a surround at the centre may take, islands among them: "some
/// region A holds p, lies within distance 0..upper of p", and its outer boundary
/// "lies within lower..upper of p". Distance is measured from p.
pub fn allowed(ways: &[Way], distances: &Distances, centre: usize, bounds: Bounds) -> Vec<Region> {
    let inner = Bounds { lower: 0, ..bounds };
    let within = |place: usize, bounds: Bounds| distances.within(centre, place, bounds);
    all_sets(distances.places())
        .map(|members| Region { members, boundary: outer_boundary(ways, members) })
        .filter(|region| region.members().any(|place| place == centre))
        .filter(|region| region.members().all(|place| within(place, inner)))
        .filter(|region| region.boundary().all(|place| within(place, bounds)))
        .collect()
}

/// Every set of the places 0 to count - 1.
fn all_sets(count: usize) -> impl Iterator<Item = Places> {
    0..=Places::MAX >> (64 - count)
}

/// Definition 2.4 along allowed directions: "a place is on a region's boundary if a
/// road leads to it out of the region".
fn outer_boundary(ways: &[Way], members: Places) -> Places {
    let is_in = |place: usize| members >> place & 1 == 1;
    let leads_out = |&&(from, to): &&Way| is_in(from) && !is_in(to);
    ways.iter().filter(leads_out).fold(0, |boundary, &(_, to)| boundary | 1 << to)
}

/// The places of a set, each taken out as its lowest.
fn places_of(mut set: Places) -> impl Iterator<Item = usize> {
    std::iter::from_fn(move || {
        let place = set.trailing_zeros() as usize;
        let found = set != 0;
        set &= set.wrapping_sub(1);
        found.then_some(place)
    })
}

#[cfg(test)]
mod tests {
    use super::*;

    #[test]
    fn all_sets_are_all() {
        assert_eq!(all_sets(1).count(), 2);
        assert_eq!(all_sets(3).collect::<Vec<_>>(), [0, 1, 2, 3, 4, 5, 6, 7]);
        assert_eq!(all_sets(64).size_hint().0, usize::MAX);
    }

    #[test]
    fn boundary_lies_outside_and_roads_lead_to_it() {
        let path = [(0, 1), (1, 0), (1, 2), (2, 1)];
        assert_eq!(outer_boundary(&path, 0b001), 0b010);
        assert_eq!(outer_boundary(&path, 0b010), 0b101);
        assert_eq!(outer_boundary(&path, 0b111), 0);
    }

    /// One way from 0 to 2: what leads into a region is not around it.
    #[test]
    fn boundary_is_where_roads_lead_out() {
        let path = [(0, 1), (1, 2)];
        assert_eq!(outer_boundary(&path, 0b001), 0b010);
        assert_eq!(outer_boundary(&path, 0b010), 0b100);
        assert_eq!(outer_boundary(&path, 0b100), 0);
        assert_eq!(outer_boundary(&path, 0b101), 0b010);
    }
}
