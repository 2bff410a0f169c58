//! Two signals with many ties, and lines over them that have both verdicts at
//! margin 0.

use super::random::Random;
use super::valid::{front, recorded};
use crate::builder::SheetBuilder;
use crate::road::Road;

const SIGNALS: usize = 2;

/// How many lines there are, from line 0 on.
const LINES: u32 = 6;

/// Where and when, and between which numbers.
pub struct Recording<'a> {
    /// The number of places.
    pub places: usize,
    /// The roads between them.
    pub roads: &'a [Road],
    /// The number of samples.
    pub samples: usize,
    /// The least and the greatest number.
    pub numbers: (i64, i64),
}

impl Recording<'_> {
    /// A sheet with lines over two signals: each at least or at most 0, the nots
    /// of both, and two that join them. At margin 0 lines 0 and 1 are yes, 2 and 3
    /// are no, and 4 and 5 are one or the other.
    pub fn lines(&self, random: &mut Random) -> SheetBuilder {
        let &Recording { places, roads, samples, numbers: (least, most) } = self;
        let count = places * SIGNALS * samples;
        let numbers: Vec<i32> = (0..count).map(|_| random.between(least, most) as i32).collect();
        recorded(&front(random, places, SIGNALS, samples), roads, &numbers)
            .at_least(0, 0)
            .at_most(1, 0)
            .line(3, 0, 0)
            .line(3, 1, 0)
            .line(4, 0, 3)
            .line(8, 0, 3)
    }
}

/// One of the lines.
pub fn line(random: &mut Random) -> u32 {
    random.field(0, LINES - 1)
}
