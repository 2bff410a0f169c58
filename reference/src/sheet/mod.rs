//! Sheets: what an accepted sheet says.
//!
//! [`check()`] turns words into a [`Sheet`] or says why and where they are
//! turned back. Nothing in a `Sheet` needs to be checked again: operands are
//! earlier lines, bounds are ordered, lengths are at least 1.

mod check;
mod extent;
mod operator;
mod reader;
mod table;

pub use check::check;
pub use extent::Extent;
pub use operator::{Bounds, Operator, Reach};

use crate::layout::Layout;
use crate::road::Road;
use crate::words::PAYLOAD_MASK;

/// The greatest number of signals.
pub const MOST_SIGNALS: usize = 16;

/// The greatest number of samples T.
pub const MOST_SAMPLES: usize = 1024;

/// The greatest number of lines.
pub const MOST_LINES: usize = 64;

/// The greatest weight of a road and the greatest bound: a full payload.
pub const GREATEST_WEIGHT: u32 = PAYLOAD_MASK;

/// The words of a road.
const WORDS_PER_ROAD: usize = 2;

/// The greatest code of a line.
pub const LAST_CODE: u32 = 15;

/// How a sheet is laid out, and the sizes that it tells.
#[derive(Clone, Copy, Debug, PartialEq, Eq)]
pub struct Head {
    /// The layout, which its answer shares.
    pub layout: Layout,
    /// The number of places, n.
    pub places: usize,
    /// The number of signals, v.
    pub signals: usize,
    /// The number of samples in time, T.
    pub samples: usize,
}

impl Head {
    /// Where a sample stands among all: "time outermost, then place, then signal".
    pub fn reading_index(&self, sample: usize, place: usize, signal: usize) -> usize {
        (sample * self.places + place) * self.signals + signal
    }
}

/// A line of the table. It has verdicts for the samples of its extent "and no
/// others".
#[derive(Clone, Copy, Debug, PartialEq, Eq)]
pub struct Line {
    /// What the line says.
    pub operator: Operator,
    /// For which samples it says it.
    pub extent: Extent,
}

/// An accepted sheet.
#[derive(Clone, Debug, PartialEq, Eq)]
pub struct Sheet {
    /// The layout and the sizes.
    pub head: Head,
    /// The roads in their order.
    pub roads: Vec<Road>,
    /// The v·n·T sampled numbers: "time outermost, then place, then signal".
    pub readings: Vec<i32>,
    /// The lines of the table.
    pub lines: Vec<Line>,
}

impl Sheet {
    /// The number sampled at a time and a place for a signal.
    pub fn reading(&self, sample: usize, place: usize, signal: usize) -> i32 {
        self.readings[self.head.reading_index(sample, place, signal)]
    }

    /// The index of the first sample among the sheet's words, right behind the roads.
    pub fn first_sample(&self) -> usize {
        self.head.layout.front_words() + WORDS_PER_ROAD * self.roads.len()
    }

    /// From where to where roads lead.
    pub fn ways(&self) -> impl Iterator<Item = (usize, usize)> + '_ {
        self.roads.iter().flat_map(Road::ways)
    }

    /// For each place the places to which a road leads from it.
    pub fn neighbours(&self) -> Vec<Vec<usize>> {
        let mut neighbours = vec![Vec::new(); self.head.places];
        for (from, to) in self.ways() {
            neighbours[from].push(to);
        }
        neighbours
    }

    /// For each line how many lines stand on top of one another, itself the top.
    pub fn depths(&self) -> Vec<usize> {
        let mut depths: Vec<usize> = Vec::new();
        for line in &self.lines {
            let operands = line.operator.operands();
            let below = operands.map(|operand| operand.map_or(0, |line| depths[line]));
            depths.push(1 + below[0].max(below[1]));
        }
        depths
    }
}
