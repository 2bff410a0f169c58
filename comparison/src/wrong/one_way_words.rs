//! Engines that read or refuse the direction of roads wrongly, in narrow sheets or in
//! wide ones.

use super::caught;
use super::mistaken::{mistaken, Given};
use super::partly::beyond;
use super::rereads::{reread_roads, Rereads};
use reference::judge::Outcome;
use reference::layout::{Layout, Pair};
use reference::road::{Direction, BOTH_MARKS};
use reference::words::{self, kinds};

const FIRST_TO_SECOND: u32 = 1 << 27;
const SECOND_TO_FIRST: u32 = 1 << 26;
const BIT_25: u32 = 1 << 25;

/// Caught by narrow sheets alone, and by wide ones.
#[track_caller]
fn assert_caught(reread: fn(u32) -> u32) {
    for layout in Layout::BOTH {
        let engine = Rereads(|words: &mut [u32]| {
            if Layout::of(words) == layout {
                reread_roads(words, reread);
            }
        });
        assert!(caught(&engine).is_some());
    }
}

/// The same with number and place alone told wrongly, given the first word of the
/// road that is refused and that of the road before, if there is one.
#[track_caller]
fn assert_caught_telling(mistake: fn(&Road, &mut Outcome)) {
    for layout in Layout::BOTH {
        let engine = mistaken(|given, outcome| {
            let road = Road::of(given, outcome).filter(|road| road.layout == layout);
            road.into_iter().for_each(|road| mistake(&road, outcome));
        });
        assert!(caught(&engine).is_some());
    }
}

/// A road that is refused with 4, 5 or 6.
struct Road {
    layout: Layout,
    places: usize,
    word: u32,
    before: Option<u32>,
    /// What follows, if there is a word.
    weight: Option<u32>,
}

impl Road {
    fn of(given: &Given, outcome: &Outcome) -> Option<Self> {
        if !(4..=6).contains(&outcome.number) {
            return None;
        }
        let (front, at) = (given.front(), outcome.place as usize);
        let before = (at > front.layout.front_words()).then(|| given.words[at - 2]);
        Some(Road {
            layout: front.layout,
            places: front.places,
            word: given.words[at],
            before,
            weight: given.words.get(at + 1).copied(),
        })
    }

    fn has_both_marks(&self) -> bool {
        self.word & BOTH_MARKS == BOTH_MARKS
    }

    /// Whether its pair would be refused with 5.
    fn is_outside(&self) -> bool {
        let Pair { first, second, .. } = self.layout.pair(self.word);
        first >= second || second >= self.places
    }

    /// Whether its pair would be refused with 6.
    fn is_out_of_order(&self) -> bool {
        self.before.is_some_and(|before| self.word & !BOTH_MARKS <= before & !BOTH_MARKS)
    }
}

#[test]
fn directions_passed_over() {
    assert_caught(|word| match Direction::told(word) {
        Some(_) => word & !BOTH_MARKS,
        None => word,
    });
}

#[test]
fn one_direction_passed_over() {
    assert_caught(|word| match Direction::told(word) {
        Some(Direction::FirstToSecond) => word & !BOTH_MARKS,
        _ => word,
    });
    assert_caught(|word| match Direction::told(word) {
        Some(Direction::SecondToFirst) => word & !BOTH_MARKS,
        _ => word,
    });
}

#[test]
fn directions_exchanged() {
    assert_caught(|word| match Direction::told(word) {
        Some(direction) => word & !BOTH_MARKS | direction.turned().mark(),
        None => word,
    });
}

/// Both bits taken for both ways, or for one of them.
#[test]
fn both_bits_accepted() {
    assert_caught(|word| match Direction::told(word) {
        None => word & !BOTH_MARKS,
        Some(_) => word,
    });
    assert_caught(|word| match Direction::told(word) {
        None => word & !SECOND_TO_FIRST,
        Some(_) => word,
    });
    assert_caught(|word| match Direction::told(word) {
        None => word & !FIRST_TO_SECOND,
        Some(_) => word,
    });
}

#[test]
fn a_direction_still_refused() {
    assert_caught(|word| word | (word & FIRST_TO_SECOND) >> 2);
    assert_caught(|word| word | (word & SECOND_TO_FIRST) >> 1);
}

/// The bit next to those of the direction.
#[test]
fn bit_25_accepted() {
    assert_caught(|word| word & !BIT_25);
}

/// Where it stands beside a direction.
#[test]
fn bit_25_accepted_of_one_way_roads() {
    assert_caught(|word| if word & BOTH_MARKS == 0 { word } else { word & !BIT_25 });
}

/// Of a narrow road: a wide one has its first place there.
#[test]
fn bits_below_accepted() {
    let engine = Rereads(|words: &mut [u32]| {
        if !Layout::of(words).is_wide() {
            reread_roads(words, |word| word & !0x03FF_0000);
        }
    });
    assert!(caught(&engine).is_some());
}

#[test]
fn both_bits_told_after_the_places() {
    assert_caught_telling(|road, outcome| {
        if outcome.number == 4 && road.has_both_marks() && road.is_outside() {
            outcome.number = 5;
        }
    });
}

#[test]
fn both_bits_told_after_the_order() {
    assert_caught_telling(|road, outcome| {
        if outcome.number == 4 && road.has_both_marks() && road.is_out_of_order() {
            outcome.number = 6;
        }
    });
}

#[test]
fn both_bits_told_after_the_weight() {
    assert_caught_telling(|road, outcome| {
        let is_right = road.weight.is_some_and(|word| {
            words::kind(word) == kinds::ROAD_WEIGHT && words::payload(word) > 0
        });
        if outcome.number == 4 && road.has_both_marks() && !is_right {
            (outcome.number, outcome.place) = (7, outcome.place + 1);
        }
    });
}

#[test]
fn both_bits_told_as_a_faulty_pair() {
    assert_caught_telling(|road, outcome| {
        if outcome.number == 4 && road.has_both_marks() {
            outcome.number = 5;
        }
    });
}

#[test]
fn both_bits_told_at_the_weight() {
    assert_caught_telling(|road, outcome| {
        if outcome.number == 4 && road.has_both_marks() {
            outcome.place += 1;
        }
    });
}

/// By whole words a bit of the direction puts a pair above itself, and above greater
/// ones: nothing is told of the road, and something of what stands behind.
#[test]
fn roads_ordered_by_their_words() {
    assert_caught_telling(|road, outcome| {
        if outcome.number == 6 && road.before.is_some_and(|before| road.word > before) {
            (outcome.number, outcome.place) = (8, outcome.place + 2);
        }
    });
}

/// A pair that stands once each way.
#[test]
fn a_pair_taken_once_for_each_direction() {
    assert_caught_telling(|road, outcome| {
        let is_same = |before: u32| road.word & !BOTH_MARKS == before & !BOTH_MARKS;
        let is_other = |before: &u32| is_same(*before) && road.word != *before;
        if outcome.number == 6 && road.before.filter(is_other).is_some() {
            (outcome.number, outcome.place) = (8, outcome.place + 2);
        }
    });
}

#[test]
fn directions_passed_over_beyond_64_places() {
    let engine = Rereads(|words: &mut [u32]| reread_roads(words, |word| word & !BOTH_MARKS));
    assert!(caught(&beyond(engine)).is_some());
}
