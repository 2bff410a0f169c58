//! What roads are refused for, narrow ones and wide ones: their direction, and what is
//! wrong with roads of every direction.

use super::setting::Struck;
use reference::layout::{Layout, Pair};
use reference::road::Direction;
use reference::words::{self, kinds};
use std::ops::Range;

/// What a refused road may show: its text, the numbers that a run must have seen it
/// with, and whether it is so.
type Shown = (&'static str, &'static [u64], fn(&Struck) -> bool);

const SHOWN: [Shown; 14] = [
    ("both directions", &[4], |struck| direction(struck).is_none()),
    ("both directions and nothing else", &[4], |struck| {
        direction(struck).is_none()
            && pair(struck).spare == 0
            && is_inside(struck)
            && is_above(struck)
    }),
    ("both directions beside a spare bit", &[4], |struck| {
        direction(struck).is_none() && pair(struck).spare > 0
    }),
    ("both directions of a pair not in the network", &[4], |struck| {
        direction(struck).is_none() && !is_inside(struck)
    }),
    ("both directions of a pair out of order", &[4], |struck| {
        direction(struck).is_none() && is_inside(struck) && !is_above(struck)
    }),
    ("both directions before a weight of 0", &[4], |struck| {
        let weight = struck.words.get(struck.place + 1).copied();
        direction(struck).is_none() && weight == Some(words::word(kinds::ROAD_WEIGHT, 0))
    }),
    ("a spare bit, both ways", &[4], |struck| direction(struck) == Some(Direction::BothWays)),
    ("a spare bit, one way", &[4], |struck| direction(struck).is_some_and(Direction::is_one_way)),
    ("from first to second", &[5, 6], |struck| direction(struck) == Some(Direction::FirstToSecond)),
    ("from second to first", &[5, 6], |struck| direction(struck) == Some(Direction::SecondToFirst)),
    ("as it was once more", &[6], |struck| word_before(struck) == struck.word()),
    ("once more with another direction", &[6], |struck| {
        pair_before(struck) == places(pair(struck)) && word_before(struck) != struck.word()
    }),
    ("a lower pair in a greater word", &[6], |struck| {
        places(pair(struck)) < pair_before(struck) && struck.word() > word_before(struck)
    }),
    ("one way", &[7], |struck| {
        Direction::told(struck.words[struck.place - 1]).is_some_and(Direction::is_one_way)
    }),
];

/// The bits of a narrow road's first word that must be zero. Those of a wide one stand
/// beside what else is asked of wide words.
const SPARE: Range<u32> = 16..26;

/// All labels, each a number and a text.
pub fn labels() -> impl Iterator<Item = (u64, String)> {
    let shown = SHOWN.iter().flat_map(|(text, numbers, _)| {
        let both =
            Layout::BOTH.into_iter().flat_map(|layout| numbers.iter().map(move |&n| (layout, n)));
        both.map(|(layout, number)| (number, of_road(layout, text)))
    });
    shown.chain(SPARE.map(|bit| (4, of_bit(bit))))
}

fn of_road(layout: Layout, text: &str) -> String {
    let layout = if layout.is_wide() { "wide" } else { "narrow" };
    format!("a {layout} road, {text}")
}

fn of_bit(bit: u32) -> String {
    of_road(Layout::Narrow, &format!("bit {bit}"))
}

/// The texts of the labels that a refused case has.
pub fn shown(struck: &Struck, number: u64) -> Vec<String> {
    let layout = struck.front().layout;
    let asked = SHOWN.iter().filter(|(_, numbers, _)| numbers.contains(&number));
    let texts = asked.filter(|(_, _, is_so)| is_so(struck));
    let is_set = |bit: &u32| number == 4 && !layout.is_wide() && struck.word() >> bit & 1 == 1;
    let bits = SPARE.filter(is_set).map(of_bit);
    texts.map(|(text, ..)| of_road(layout, text)).chain(bits).collect()
}

fn pair(struck: &Struck) -> Pair {
    struck.front().layout.pair(struck.word())
}

fn direction(struck: &Struck) -> Option<Direction> {
    pair(struck).direction
}

fn places(pair: Pair) -> (usize, usize) {
    (pair.first, pair.second)
}

/// The first word of the road before, two words before.
fn word_before(struck: &Struck) -> u32 {
    struck.words[struck.place - 2]
}

fn pair_before(struck: &Struck) -> (usize, usize) {
    places(struck.front().layout.pair(word_before(struck)))
}

/// Whether 5 would not be told of the road.
fn is_inside(struck: &Struck) -> bool {
    let (first, second) = places(pair(struck));
    first < second && second < struck.front().places
}

/// Whether 6 would not be told of it.
fn is_above(struck: &Struck) -> bool {
    let is_first = struck.place == struck.front().layout.front_words();
    is_first || pair_before(struck) < places(pair(struck))
}

#[cfg(test)]
mod tests {
    use super::*;
    use reference::generate::Case;
    use reference::layout::ENOUGH_DISTANCES;
    use reference::sheet::check;

    /// The number, and what is shown by three places with a road 0-1 that runs from
    /// first to second, and another road that begins with this word.
    fn shown_with(layout: Layout, word: u32) -> (u64, Vec<String>) {
        let front: &[u32] = match layout {
            Layout::Narrow => &[0x1030_1001],
            Layout::Wide => &[0xA000_0003, 0x1000_1001],
        };
        let words = [front, &[0x2800_0001, 0x3000_0001, word]].concat();
        let refusal = check(&words, ENOUGH_DISTANCES).expect_err("a refusal");
        let struck = Struck { words: &words, case: &Case::of(&words, 9), place: refusal.place };
        (refusal.number(), shown(&struck, refusal.number()))
    }

    #[track_caller]
    fn assert_shown(layout: Layout, word: u32, number: u64, texts: &[&str]) {
        let texts = texts.iter().map(|text| of_road(layout, text)).collect();
        assert_eq!(shown_with(layout, word), (number, texts));
    }

    #[test]
    fn directions() {
        let both = ["both directions", "both directions and nothing else"];
        assert_shown(Layout::Narrow, 0x2C00_0102, 4, &both);
        assert_shown(Layout::Wide, 0x2C00_1002, 4, &both);
        let repeated = ["both directions", "both directions of a pair out of order"];
        assert_shown(Layout::Narrow, 0x2C00_0001, 4, &repeated);
        let exchanged = ["both directions", "both directions of a pair not in the network"];
        assert_shown(Layout::Wide, 0x2C00_1000, 4, &exchanged);
        assert_shown(
            Layout::Narrow,
            0x2201_0102,
            4,
            &["a spare bit, both ways", "bit 16", "bit 25"],
        );
        assert_shown(Layout::Wide, 0x2500_1002, 4, &["a spare bit, one way"]);
    }

    #[test]
    fn pairs() {
        assert_shown(Layout::Narrow, 0x2800_0201, 5, &["from first to second"]);
        assert_shown(Layout::Wide, 0x2000_1001, 5, &[]);
        let as_it_was = ["from first to second", "as it was once more"];
        assert_shown(Layout::Wide, 0x2800_0001, 6, &as_it_was);
        let other = ["from second to first", "once more with another direction"];
        assert_shown(Layout::Narrow, 0x2400_0001, 6, &other);
        assert_shown(Layout::Wide, 0x2800_1002, 7, &["one way"]);
        assert_shown(Layout::Narrow, 0x2000_0102, 7, &[]);
    }
}
