//! The network, and the operators over ranges of it: somewhere, everywhere.

use super::scale::Scale;
use crate::distance::Distances;
use crate::sheet::{Bounds, Sheet};

/// The network as the spatial operators see it.
pub struct Space<'a> {
    /// How many places there are.
    pub places: usize,
    /// For each place those to which a road leads from it.
    pub neighbours: Vec<Vec<usize>>,
    distances: &'a Distances,
}

impl<'a> Space<'a> {
    /// The network of a sheet.
    pub fn new(sheet: &Sheet, distances: &'a Distances) -> Self {
        Space { places: sheet.head.places, neighbours: sheet.neighbours(), distances }
    }

    /// Somewhere and everywhere: at each place the greatest or the least over
    /// the places in range, or what there is of nothing.
    pub fn range<S: Scale>(
        &self,
        left: &[S],
        bounds: Bounds,
        nothing: S,
        pick: impl Fn(S, S) -> S,
    ) -> Vec<S> {
        let ranges: Vec<Vec<usize>> =
            (0..self.places).map(|centre| self.in_range(centre, bounds)).collect();
        let mut values = Vec::with_capacity(left.len());
        for row in left.chunks_exact(self.places) {
            for range in &ranges {
                let in_range = range.iter().map(|&place| row[place]);
                values.push(in_range.fold(nothing, &pick));
            }
        }
        values
    }

    /// The places within bounds of a centre.
    pub fn in_range(&self, centre: usize, bounds: Bounds) -> Vec<usize> {
        (0..self.places).filter(|&place| self.distances.within(centre, place, bounds)).collect()
    }

    /// Every other place with a distance from a centre, measured from it.
    pub fn others(&self, centre: usize) -> Vec<usize> {
        let has_distance = |&other: &usize| self.distances.between(centre, other).is_some();
        (0..self.places).filter(|&other| other != centre).filter(has_distance).collect()
    }
}
