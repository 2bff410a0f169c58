//! Converters that write what they should not, beside an engine that is right.

use super::rereads::reread_roads;
use super::tools::{self, Call, Told};
use super::SEEDS_OF_RIGHT;
use crate::tools::{Tool, Tools, Written};
use crate::Implementation;
use reference::layout::{Front, Layout, MOST_PLACES};
use reference::road::BOTH_MARKS;
use reference::words::{self, kinds};

/// What a converter is given.
pub struct Asked {
    pub to: Layout,
    pub words: Vec<u32>,
    pub room: usize,
}

impl Asked {
    pub fn changes(&self) -> bool {
        Layout::of(&self.words) != self.to
    }

    /// The words that are to be written of a valid sheet.
    pub fn needed(&self) -> usize {
        self.moved(self.words.len())
    }

    /// Where a word behind the head goes.
    pub fn moved(&self, index: usize) -> usize {
        index + self.to.front_words() - Layout::of(&self.words).front_words()
    }

    /// Whether there is less room than a valid sheet of these words would need.
    pub fn is_short(&self) -> bool {
        !self.words.is_empty() && self.room < self.needed()
    }

    pub fn places(&self) -> usize {
        Front::told(&self.words).places
    }
}

/// The converter of a mistake.
pub fn mistaken(mistake: impl Fn(&Asked, &mut Told)) -> impl Tools {
    tools::mistaken(move |call, told| {
        let Call { tool, mut inputs, room } = call;
        if let Tool::Convert(to) = tool {
            mistake(&Asked { to, words: inputs.swap_remove(0), room }, told);
        }
    })
}

/// Demands that the converter of a mistake is caught.
#[track_caller]
pub fn assert_caught(mistake: impl Fn(&Asked, &mut Told)) {
    tools::assert_caught(&mistaken(mistake));
}

/// Caught where the sheet changes, each way by itself.
#[track_caller]
pub fn assert_caught_where_changed(mistake: impl Fn(&[u32], &mut [u32])) {
    for to in Layout::BOTH {
        assert_caught(|asked, told| {
            if asked.to == to && asked.changes() && told.outcome.number == 0 {
                mistake(&asked.words, &mut told.words);
            }
        });
    }
}

/// Changes the first words of roads, by their pairs; they run the ways that they ran.
fn change_roads(written: &mut [u32], change: impl Fn(Layout, usize, usize) -> u32) {
    let layout = Layout::of(written);
    reread_roads(written, |word| {
        let pair = layout.pair(word);
        change(layout, pair.first, pair.second) | word & BOTH_MARKS
    });
}

#[test]
fn without_a_fault_nothing_is_found() {
    assert_eq!(tools::caught_within(&mistaken(|_, _| {}), SEEDS_OF_RIGHT), None);
}

#[test]
fn an_end_count_as_it_was() {
    assert_caught_where_changed(|words, written| {
        written.last_mut().into_iter().for_each(|end| *end = words[words.len() - 1]);
    });
}

#[test]
fn roads_as_they_were() {
    assert_caught_where_changed(|_, written| {
        change_roads(written, |layout, first, second| {
            layout.other().pair_word(first as u32, second as u32)
        });
    });
}

#[test]
fn places_of_roads_exchanged() {
    assert_caught_where_changed(|_, written| {
        change_roads(written, |layout, first, second| {
            layout.pair_word(second as u32, first as u32)
        });
    });
}

#[test]
fn places_of_roads_without_their_top_bit() {
    assert_caught_where_changed(|_, written| {
        change_roads(written, |layout, first, second| {
            layout.pair_word(first as u32 & 31, second as u32 & 31)
        });
    });
}

/// Of the last road alone: what is right up to it is found wrong.
#[test]
fn the_last_road_as_it_was() {
    assert_caught_where_changed(|_, written| {
        let layout = Layout::of(written);
        let last = written.iter().rposition(|&word| words::kind(word) == kinds::ROAD_PLACES);
        if let Some(at) = last {
            let pair = layout.pair(written[at]);
            let as_it_was = layout.other().pair_word(pair.first as u32, pair.second as u32);
            written[at] = as_it_was | written[at] & BOTH_MARKS;
        }
    });
}

#[test]
fn weights_without_their_top_bit() {
    assert_caught_where_changed(|_, written| {
        let is_weight = |word: &&mut u32| words::kind(**word) == kinds::ROAD_WEIGHT;
        written.iter_mut().filter(is_weight).for_each(|word| *word &= !words::BIT_27);
    });
}

#[test]
fn samples_without_their_sign() {
    assert_caught_where_changed(|_, written| {
        let is_sample = |word: &&mut u32| words::kind(**word) == kinds::SAMPLE;
        written.iter_mut().filter(is_sample).for_each(|word| *word &= !(1 << 26));
    });
}

/// 64 places become 0.
#[test]
fn places_of_six_bits() {
    assert_caught_where_changed(|_, written| {
        let mut front = Front::told(written);
        front.places %= 64;
        let front = front.words(kinds::HEAD);
        written[..front.len()].copy_from_slice(&front);
    });
}

/// 16 signals become 0.
#[test]
fn signals_of_four_bits() {
    assert_caught_where_changed(|_, written| {
        written[Layout::of(written).head_index()] &= !(1 << 16);
    });
}

#[test]
fn places_told_in_the_head_of_a_wide_sheet_too() {
    assert_caught(|asked, told| {
        if asked.to.is_wide() && asked.changes() && told.outcome.number == 0 {
            told.words[1] |= asked.words[0] & 0xFF0_0000;
        }
    });
}

/// The other way round: what is asked into wide is taken to narrow.
#[test]
fn narrow_for_wide() {
    struct Exchanged;
    impl Tools for Exchanged {
        fn run(&self, tool: Tool, inputs: &[&[u8]], left: Written) -> u64 {
            let tool = match tool {
                Tool::Convert(to) => Tool::Convert(to.other()),
                other => other,
            };
            Implementation.run(tool, inputs, left)
        }
    }
    tools::assert_caught(&Exchanged);
}

#[test]
fn unaltered_in_both_directions() {
    for to in Layout::BOTH {
        assert_caught(|asked, told| {
            if asked.to == to && told.outcome.number == 0 {
                told.write(asked.words.clone());
            }
        });
    }
}

#[test]
fn a_sheet_already_in_that_layout_refused() {
    for to in Layout::BOTH {
        assert_caught(|asked, told| {
            if asked.to == to && !asked.changes() && told.outcome.number == 0 {
                told.refuse(if to.is_wide() { 17 } else { 2 }, 0);
            }
        });
    }
}

/// A wide sheet of few places would be as good as a narrow one, but was asked for.
#[test]
fn few_places_asked_into_wide_left_narrow() {
    assert_caught(|asked, told| {
        if asked.to.is_wide() && told.outcome.number == 0 && asked.places() <= MOST_PLACES {
            told.write(reference::convert::laid_out(&asked.words, Layout::Narrow).expect("valid"));
        }
    });
}
