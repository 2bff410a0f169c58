//! The words of a sheet, laid out front to back.

use crate::layout::{Front, Layout};
use crate::road::Road;
use crate::words::{self, kinds};

/// The words of a sheet as they grow, front to back. Nothing is checked, so
/// that sheets with faults can be built as well.
#[derive(Clone, Debug, Default)]
pub struct SheetBuilder {
    layout: Layout,
    words: Vec<u32>,
}

impl SheetBuilder {
    /// A narrow sheet of so many places, signals and samples.
    pub fn new(places: u32, signals: u32, samples: u32) -> Self {
        SheetBuilder::laid_out(Layout::Narrow, places, signals, samples)
    }

    /// A wide sheet of so many places, signals and samples.
    pub fn wide(places: u32, signals: u32, samples: u32) -> Self {
        SheetBuilder::laid_out(Layout::Wide, places, signals, samples)
    }

    /// A sheet of a layout, of so many places, signals and samples.
    pub fn laid_out(layout: Layout, places: u32, signals: u32, samples: u32) -> Self {
        let [places, middle, samples] = [places, signals, samples].map(|size| size as usize);
        SheetBuilder::of(&Front { layout, places, middle, samples })
    }

    /// A sheet that begins with this front.
    pub fn of(front: &Front) -> Self {
        SheetBuilder { layout: front.layout, words: front.words(kinds::HEAD) }
    }

    /// A sheet to be continued: the words of a complete one without its end.
    pub fn resume(words: &[u32]) -> Self {
        let before_end = words.len().saturating_sub(1);
        SheetBuilder { layout: Layout::of(words), words: words[..before_end].to_vec() }
    }

    /// Adds any word.
    pub fn word(mut self, kind: u32, payload: u32) -> Self {
        self.words.push(words::word(kind, payload));
        self
    }

    /// Adds words as they stand in another sheet.
    pub fn copied(mut self, words: &[u32]) -> Self {
        self.words.extend_from_slice(words);
        self
    }

    /// Adds the two words of a road that runs both ways.
    pub fn road(self, first: u32, second: u32, weight: u32) -> Self {
        self.with_road(&Road::both_ways(first as usize, second as usize, weight))
    }

    /// Adds the two words of a road that runs from one place to another alone.
    pub fn one_way(self, from: u32, to: u32, weight: u32) -> Self {
        self.with_road(&Road::one_way(from as usize, to as usize, weight))
    }

    /// Adds a road's two words.
    pub fn with_road(mut self, road: &Road) -> Self {
        let pair = self.layout.pair_word(road.first as u32, road.second as u32);
        self.words.push(pair | road.direction.mark());
        self.word(kinds::ROAD_WEIGHT, road.weight)
    }

    /// Adds samples.
    pub fn samples(self, numbers: &[i32]) -> Self {
        let add =
            |sheet: Self, &number: &i32| sheet.word(kinds::SAMPLE, words::sample_payload(number));
        numbers.iter().fold(self, add)
    }

    /// Adds a line word.
    pub fn line(self, code: u32, left: u32, right: u32) -> Self {
        self.word(kinds::LINE, code << 20 | left << 10 | right)
    }

    /// Adds a constant.
    pub fn constant(self, number: i32) -> Self {
        self.word(kinds::CONSTANT, words::sample_payload(number))
    }

    /// Adds a lower and an upper bound.
    pub fn bounds(self, lower: u32, upper: u32) -> Self {
        self.word(kinds::LOWER, lower).word(kinds::UPPER, upper)
    }

    /// A line of code 0.
    pub fn truth(self) -> Self {
        self.line(0, 0, 0)
    }

    /// A line of code 1.
    pub fn at_least(self, signal: u32, number: i32) -> Self {
        self.line(1, signal, 0).constant(number)
    }

    /// A line of code 2.
    pub fn at_most(self, signal: u32, number: i32) -> Self {
        self.line(2, signal, 0).constant(number)
    }

    /// A line of a code with bounds.
    pub fn bounded(self, code: u32, left: u32, right: u32, bounds: (u32, u32)) -> Self {
        self.line(code, left, right).bounds(bounds.0, bounds.1)
    }

    /// The words so far.
    pub fn words(self) -> Vec<u32> {
        self.words
    }

    /// The words with the end that belongs to them.
    pub fn end(self) -> Vec<u32> {
        let count = self.words.len() as u32;
        self.word(kinds::END, count).words()
    }
}
