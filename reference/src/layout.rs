//! The two layouts of sheets and of answers, and the words at their front.
//!
//! All that differs between the layouts is said here. Whoever reads or writes
//! words asks the layout and goes one way for both.

use crate::road::Direction;
use crate::words::{self, kinds};

/// The least number of entries of a distance table lent to a narrow sheet: 64
/// times 64.
pub const DISTANCE_ENTRIES: usize = 4096;

/// The greatest number of places of a narrow sheet.
pub const MOST_PLACES: usize = 64;

/// The greatest number of places of a wide sheet.
pub const MOST_WIDE_PLACES: usize = 1024;

/// As many entries of a distance table as any sheet can need.
pub const ENOUGH_DISTANCES: usize = MOST_WIDE_PLACES * MOST_WIDE_PLACES;

/// How a sheet and its answer are laid out.
#[derive(Clone, Copy, Debug, Default, PartialEq, Eq)]
pub enum Layout {
    /// The layout of the base: the head tells the places, 64 at most.
    #[default]
    Narrow,
    /// "A wide sheet begins with a kind 10 word", which tells the places, 1,024
    /// at most; the head follows "with places 0".
    Wide,
}

impl Layout {
    /// Both of them.
    pub const BOTH: [Layout; 2] = [Layout::Narrow, Layout::Wide];

    /// The layout of a sheet's or an answer's words: "a first word of kind 10
    /// makes a sheet wide". No words are narrow.
    pub fn of(words: &[u32]) -> Self {
        match words.first() {
            Some(&first) if words::kind(first) == kinds::WIDE => Layout::Wide,
            _ => Layout::Narrow,
        }
    }

    /// The layout that this is not.
    pub fn other(self) -> Self {
        match self {
            Layout::Narrow => Layout::Wide,
            Layout::Wide => Layout::Narrow,
        }
    }

    /// Whether it is the wide one.
    pub fn is_wide(self) -> bool {
        self == Layout::Wide
    }

    /// The index of the head, the word of kind 1 in a sheet and 13 in an answer.
    pub fn head_index(self) -> usize {
        usize::from(self.is_wide())
    }

    /// How many words there are up to the head: the index of the first road or
    /// sample, or of an answer's first line.
    pub fn front_words(self) -> usize {
        self.head_index() + 1
    }

    /// The greatest number of places.
    pub fn most_places(self) -> usize {
        match self {
            Layout::Narrow => MOST_PLACES,
            Layout::Wide => MOST_WIDE_PLACES,
        }
    }

    /// The entries of the distance table that must be lent before any word is
    /// read. For a wide sheet refusal 1 "means under places squared and comes
    /// after 3".
    pub fn distances_at_start(self) -> usize {
        match self {
            Layout::Narrow => DISTANCE_ENTRIES,
            Layout::Wide => 0,
        }
    }

    /// How many bits a place takes in a road's first word: "bits 15..8 first
    /// place, 7..0 second place", and of a wide sheet "the first place in bits
    /// 23..12 and the second in 11..0".
    pub fn place_bits(self) -> u32 {
        match self {
            Layout::Narrow => 8,
            Layout::Wide => 12,
        }
    }

    /// What a road's first word tells.
    pub fn pair(self, word: u32) -> Pair {
        let bits = self.place_bits();
        Pair {
            direction: Direction::told(word),
            spare: words::field(word, 25, 2 * bits),
            first: words::field(word, 2 * bits - 1, bits) as usize,
            second: words::field(word, bits - 1, 0) as usize,
        }
    }

    /// The first word of a road that runs both ways.
    pub fn pair_word(self, first: u32, second: u32) -> u32 {
        words::word(kinds::ROAD_PLACES, first << self.place_bits() | second)
    }
}

/// What a road's first word tells, right or wrong.
#[derive(Clone, Copy, Debug, PartialEq, Eq)]
pub struct Pair {
    /// Which ways the road runs; nothing if its word says both one and the other.
    pub direction: Option<Direction>,
    /// The bits between those that tell it and both places, which should be zero.
    pub spare: u32,
    /// The first place.
    pub first: usize,
    /// The second place.
    pub second: usize,
}

/// What the words at the front of a sheet or of an answer tell, within their
/// limits or not.
#[derive(Clone, Copy, Debug, PartialEq, Eq)]
pub struct Front {
    /// How they are laid out.
    pub layout: Layout,
    /// The number of places, n.
    pub places: usize,
    /// What the head has in bits 19..12: a sheet's signals, an answer's lines.
    pub middle: usize,
    /// The number of samples in time, T.
    pub samples: usize,
}

impl Front {
    /// What the front of some words tells. A word that is missing tells 0.
    pub fn told(words: &[u32]) -> Self {
        let layout = Layout::of(words);
        let word = |index: usize| words.get(index).copied().unwrap_or(0);
        let head = word(layout.head_index());
        let places = match layout {
            Layout::Narrow => words::field(head, 27, 20),
            Layout::Wide => words::field(word(0), 15, 0),
        };
        Front {
            layout,
            places: places as usize,
            middle: words::field(head, 19, 12) as usize,
            samples: words::field(head, 11, 0) as usize,
        }
    }

    /// What the front of a sheet's or an answer's bytes tells.
    pub fn told_by_bytes(bytes: &[u8]) -> Self {
        Front::told(&words::first_words(bytes, Layout::Wide.front_words()))
    }

    /// The words that tell it, the last of them a head of this kind.
    pub fn words(&self, head: u32) -> Vec<u32> {
        let sizes = (self.middle << 12 | self.samples) as u32;
        let places = self.places as u32;
        match self.layout {
            Layout::Narrow => vec![words::word(head, places << 20 | sizes)],
            Layout::Wide => vec![words::word(kinds::WIDE, places), words::word(head, sizes)],
        }
    }

    /// Whether some words begin with just these, so that no bit of their front is
    /// other than what it tells asks for: the kinds are right, what is spare is
    /// zero, and so are the places in the head of the wide layout.
    pub fn is_laid_out(&self, words: &[u32], head: u32) -> bool {
        words.starts_with(&self.words(head))
    }

    /// Whether the places are at least 1 and no more than the layout has.
    pub fn has_places_in_limits(&self) -> bool {
        (1..=self.layout.most_places()).contains(&self.places)
    }

    /// How many entries of the distance table a sheet with this front needs, none
    /// if it is refused for its places before they are asked for.
    pub fn distances_needed(&self) -> usize {
        let of_places = if self.has_places_in_limits() { self.places * self.places } else { 0 };
        of_places.max(self.layout.distances_at_start())
    }
}

#[cfg(test)]
mod tests {
    use super::*;

    const NARROW: [u32; 1] = [0x1020_1002];
    const WIDE: [u32; 2] = [0xA000_0002, 0x1000_1002];

    #[test]
    fn the_first_word_decides() {
        assert_eq!(Layout::of(&NARROW), Layout::Narrow);
        assert_eq!(Layout::of(&WIDE), Layout::Wide);
        assert_eq!(Layout::of(&[]), Layout::Narrow);
        assert_eq!(Layout::of(&[0, 0xA000_0002]), Layout::Narrow);
    }

    #[test]
    fn both_fronts_tell_the_same() {
        let (narrow, wide) = (Front::told(&NARROW), Front::told(&WIDE));
        assert_eq!((narrow.places, narrow.middle, narrow.samples), (2, 1, 2));
        assert_eq!(Front { layout: Layout::Narrow, ..wide }, narrow);
        assert_eq!(narrow.words(kinds::HEAD), NARROW);
        assert_eq!(Front::told_by_bytes(&words::to_bytes(&WIDE)), wide);
        assert_eq!(wide.words(kinds::HEAD), WIDE);
        assert_eq!([narrow, wide].map(|front| front.distances_needed()), [4096, 4]);
    }

    /// Spare bits, another kind, places in the head, and a word missing.
    #[test]
    fn what_is_not_laid_out() {
        let is_laid_out = |words: &[u32]| Front::told(words).is_laid_out(words, kinds::HEAD);
        assert!(is_laid_out(&NARROW) && is_laid_out(&WIDE));
        for words in [[0xA001_0002, 0x1000_1002], [0xA800_0002, 0x1000_1002]] {
            assert!(!is_laid_out(&words));
        }
        for words in [[0xA000_0002, 0xD000_1002], [0xA000_0002, 0x1020_1002]] {
            assert!(!is_laid_out(&words));
        }
        assert!(!is_laid_out(&WIDE[..1]) && !is_laid_out(&[]) && !is_laid_out(&[0xD020_1002]));
    }

    #[test]
    fn pairs_have_8_bits_or_12() {
        let direction = Some(Direction::BothWays);
        let pair = |spare, first, second| Pair { direction, spare, first, second };
        assert_eq!(Layout::Narrow.pair(0x2012_3456), pair(0x012, 0x34, 0x56));
        assert_eq!(Layout::Wide.pair(0x2112_3456), pair(0x1, 0x123, 0x456));
        assert_eq!(Layout::Narrow.pair_word(0x34, 0x56), 0x2000_3456);
        assert_eq!(Layout::Wide.pair_word(0x123, 0x400), 0x2012_3400);
    }

    /// The two bits that tell the direction are none of the spare ones.
    #[test]
    fn pairs_have_a_direction() {
        let pair = |layout: Layout, word: u32| {
            let Pair { direction, spare, .. } = layout.pair(word);
            (direction, spare)
        };
        for layout in Layout::BOTH {
            assert_eq!(pair(layout, 0x2800_0001), (Some(Direction::FirstToSecond), 0));
            assert_eq!(pair(layout, 0x2400_0001), (Some(Direction::SecondToFirst), 0));
            assert_eq!(pair(layout, 0x2C00_0001), (None, 0));
        }
        assert_eq!(pair(Layout::Narrow, 0x2BFF_0001).1, 0x3FF);
        assert_eq!(pair(Layout::Wide, 0x27FF_F001).1, 0x3);
    }

    /// Beyond its limits a count is refused before a distance is asked for.
    #[test]
    fn distances_that_are_needed() {
        let needed = |words: &[u32]| Front::told(words).distances_needed();
        assert_eq!(needed(&[]), 4096);
        assert_eq!(needed(&[0x1FF0_1001]), 4096);
        assert_eq!(needed(&[0xA000_0400]), ENOUGH_DISTANCES);
        assert_eq!([0xA000_0000, 0xA000_0401, 0xA000_FFFF].map(|word| needed(&[word])), [0; 3]);
    }
}
