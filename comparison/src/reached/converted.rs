//! What the converter was given, and what came of it: every number, where it is told
//! beside others, and sheets that change or do not, both ways.

use super::called::{self, Called, BEHIND_WIDE_HEAD, OF_NARROW, OF_WIDE, OWN};
use super::layouts::MOST_OF_A_BYTE;
use reference::generate::tools::Given;
use reference::layout::{Layout, Pair, MOST_PLACES, MOST_WIDE_PLACES};
use reference::road::Direction;
use reference::tool::{self, Left};
use reference::words::{self, kinds};

/// A call of the converter, asked for a layout.
type Converted = Called<Layout>;

type Shown = called::Shown<Layout>;

const BOTH_WAYS: [Shown; 37] = [
    ("unaltered, without a road", &[0], |call| !call.changes() && !call.has_roads()),
    ("unaltered, with roads", &[0], |call| !call.changes() && call.has_roads()),
    ("unaltered, room exact", &[0], |call| !call.changes() && call.room() == call.needed()),
    ("unaltered, room longer", &[0], |call| !call.changes() && call.room() > call.needed()),
    ("unaltered, a word short", &[15], |call| !call.changes() && call.is_a_word_short()),
    ("unaltered, some room", &[15], |call| !call.changes() && call.has_some_room()),
    ("unaltered, no room", &[15], |call| !call.changes() && call.room() == 0),
    ("changed, without a road", &[0], |call| call.changes() && !call.has_roads()),
    ("changed, with roads", &[0], |call| call.changes() && call.has_roads()),
    ("changed, room exact", &[0], |call| call.changes() && call.room() == call.needed()),
    ("changed, room longer", &[0], |call| call.changes() && call.room() > call.needed()),
    ("changed, a word short", &[15], |call| call.changes() && call.is_a_word_short()),
    ("changed, some room", &[15], |call| call.changes() && call.has_some_room()),
    ("changed, no room", &[15], |call| call.changes() && call.room() == 0),
    ("changed, 1 place", &[0], |call| call.changes() && call.places() == 1),
    ("changed, 64 places", &[0], |call| call.changes() && call.places() == MOST_PLACES),
    ("changed, a road to place 63", &[0], |call| call.changes() && call.has_road_to(63)),
    ("changed, above 65,536 words", &[0, 15], |call| call.changes() && call.is_long()),
    ("unaltered, a road from first to second", &[0], |call| {
        !call.changes() && call.has_road_that_runs(Direction::FirstToSecond)
    }),
    ("unaltered, a road from second to first", &[0], |call| {
        !call.changes() && call.has_road_that_runs(Direction::SecondToFirst)
    }),
    ("changed, a road from first to second", &[0], |call| {
        call.changes() && call.has_road_that_runs(Direction::FirstToSecond)
    }),
    ("changed, a road from second to first", &[0], |call| {
        call.changes() && call.has_road_that_runs(Direction::SecondToFirst)
    }),
    ("both directions of a road", &[4], |call| call.faulty_direction().is_none()),
    ("a narrow sheet", &OF_NARROW, |call| !call.layout().is_wide()),
    ("a wide sheet", &OF_WIDE, |call| call.layout().is_wide()),
    ("no room", &OWN, |call| call.room() == 0),
    ("some room", &OWN, |call| call.room() > 0),
    ("no word", &[2], |call| call.words.is_empty()),
    ("the sheet", &[16], |call| call.wrong_lengths()[0]),
    ("the output", &[16], |call| call.wrong_lengths()[1]),
    ("the result", &[16], |call| call.wrong_lengths()[2]),
    ("the sheet alone", &[16], |call| call.is_wrong_alone(0)),
    ("the output alone", &[16], |call| call.is_wrong_alone(1)),
    ("the result alone", &[16], |call| call.is_wrong_alone(2)),
    ("no byte of result", &[16], |call| call.result() == 0),
    ("a faulty sheet besides", &[16], |call| !call.words.is_empty() && !call.is_valid()),
    ("a short output besides", &[16], |call| call.is_valid() && call.is_short()),
];

const TO_NARROW: [Shown; 8] = [
    ("65 places", &[18], |call| call.places() == MOST_PLACES + 1),
    ("more than 65 places", &[18], |call| call.places() > MOST_PLACES + 1),
    ("1,024 places", &[18], |call| call.places() == MOST_WIDE_PLACES),
    ("no room", &[18], |call| call.room() == 0),
    ("too little room", &[18], |call| call.is_short()),
    ("enough room", &[18], |call| !call.is_short()),
    ("more than 64 places besides", &BEHIND_WIDE_HEAD, |call| call.is_city()),
    ("more than 64 places besides", &[16], |call| call.is_city() && call.is_valid()),
];

const TO_WIDE: [Shown; 4] = [
    ("65 places", &[0], |call| call.places() == MOST_PLACES + 1),
    ("more than 255 places", &[0, 15], |call| call.places() > MOST_OF_A_BYTE),
    ("1,024 places", &[0], |call| call.places() == MOST_WIDE_PLACES),
    ("a road to a place above 255", &[0], |call| {
        (MOST_OF_A_BYTE + 1..call.places()).any(|place| call.has_road_to(place))
    }),
];

/// All labels: for each layout the numbers, and what is shown with them. 1 never
/// arises, and 18 not of what is asked into wide.
pub fn labels() -> impl Iterator<Item = String> {
    Layout::BOTH.into_iter().flat_map(|to| {
        let numbers = [0, 15, 16].into_iter().chain(OWN).chain((!to.is_wide()).then_some(18));
        called::labels(name(to), numbers, texts(to))
    })
}

fn texts(to: Layout) -> impl Iterator<Item = &'static Shown> {
    let one_way: &[Shown] = if to.is_wide() { &TO_WIDE } else { &TO_NARROW };
    BOTH_WAYS.iter().chain(one_way)
}

fn name(to: Layout) -> &'static str {
    match to {
        Layout::Narrow => "to narrow",
        Layout::Wide => "to wide",
    }
}

/// The labels of a call to a layout with what was given and what it left.
pub fn shown(to: Layout, given: &Given, left: &Left) -> Vec<String> {
    let from = Layout::of(&words::first_words(&given.inputs[0], 1));
    let longer = to.front_words() as isize - from.front_words() as isize;
    Called::new(to, given, left, longer).shown(name(to), texts(to)).collect()
}

impl Converted {
    fn changes(&self) -> bool {
        self.layout() != self.asked
    }

    /// Of a valid sheet: behind its front a road begins, or the samples do.
    fn has_roads(&self) -> bool {
        words::kind(self.words[self.layout().front_words()]) == kinds::ROAD_PLACES
    }

    /// The first words of its roads, as its layout has them.
    fn pairs(&self) -> impl Iterator<Item = Pair> + '_ {
        let words = self.words.iter().filter(|&&word| words::kind(word) == kinds::ROAD_PLACES);
        words.map(|&word| self.layout().pair(word))
    }

    fn has_road_to(&self, place: usize) -> bool {
        self.pairs().any(|pair| pair.second == place)
    }

    fn has_road_that_runs(&self, direction: Direction) -> bool {
        self.pairs().any(|pair| pair.direction == Some(direction))
    }

    /// The direction of the road that a sheet is refused for.
    fn faulty_direction(&self) -> Option<Direction> {
        let refusal = tool::valid(&self.words).err();
        refusal.and_then(|refusal| self.layout().pair(self.words[refusal.place]).direction)
    }
}

#[cfg(test)]
mod tests {
    use super::called::{label, number_label};
    use super::*;
    use reference::builder::SheetBuilder;
    use reference::worked::{ONE_WAY, ONE_WAY_BACK, WIDE_A};
    use std::collections::BTreeSet;

    /// What is shown by a sheet's words taken to a layout with so many words of room
    /// and this number given back, beside the number.
    fn shown_of(to: Layout, words: &[u32], room: usize, number: u64) -> BTreeSet<String> {
        let given = Given::of(&[words], room);
        let left = Left { number, output: Vec::new(), result: Vec::new() };
        shown(to, &given, &left).into_iter().collect()
    }

    #[track_caller]
    fn assert_shown(found: BTreeSet<String>, to: Layout, number: u64, texts: &[&str]) {
        let of_texts = texts.iter().map(|text| label(name(to), number, text));
        assert_eq!(found, of_texts.chain([number_label(name(to), number)]).collect());
    }

    #[test]
    fn labels_are_told_once() {
        let labels: Vec<String> = labels().collect();
        assert_eq!(labels.iter().collect::<BTreeSet<_>>().len(), labels.len());
    }

    #[test]
    fn what_is_written() {
        let (narrow, wide) = (Layout::Narrow, Layout::Wide);
        let changed = ["changed, with roads", "changed, room exact"];
        assert_shown(shown_of(narrow, &WIDE_A, 19, 0), narrow, 0, &changed);
        let unaltered = ["unaltered, with roads", "unaltered, room longer"];
        assert_shown(shown_of(wide, &WIDE_A, 21, 0), wide, 0, &unaltered);
        let lone = SheetBuilder::new(1, 1, 1).samples(&[0]).truth().end();
        let changed = ["changed, without a road", "changed, room exact", "changed, 1 place"];
        assert_shown(shown_of(wide, &lone, 5, 0), wide, 0, &changed);
    }

    #[test]
    fn what_runs_one_way() {
        let (narrow, wide) = (Layout::Narrow, Layout::Wide);
        let forth = [
            "unaltered, with roads",
            "unaltered, room exact",
            "unaltered, a road from first to second",
        ];
        assert_shown(shown_of(narrow, &ONE_WAY, 21, 0), narrow, 0, &forth);
        let back =
            ["changed, with roads", "changed, room exact", "changed, a road from second to first"];
        assert_shown(shown_of(wide, &ONE_WAY_BACK, 22, 0), wide, 0, &back);
        let texts = ["a narrow sheet", "some room", "both directions of a road"];
        let both = [ONE_WAY[0], ONE_WAY[1] | ONE_WAY_BACK[1]];
        assert_shown(shown_of(wide, &both, 22, 4), wide, 4, &texts);
    }

    #[test]
    fn what_has_no_room() {
        let narrow = Layout::Narrow;
        assert_shown(shown_of(narrow, &WIDE_A, 18, 15), narrow, 15, &["changed, a word short"]);
        assert_shown(shown_of(narrow, &WIDE_A, 17, 15), narrow, 15, &["changed, some room"]);
        assert_shown(shown_of(narrow, &WIDE_A, 0, 15), narrow, 15, &["changed, no room"]);
        let city = SheetBuilder::wide(65, 1, 1).samples(&[0; 65]).truth().end();
        let texts = ["65 places", "no room", "too little room"];
        assert_shown(shown_of(narrow, &city, 0, 18), narrow, 18, &texts);
        let texts = ["65 places", "enough room"];
        assert_shown(shown_of(narrow, &city, city.len() - 1, 18), narrow, 18, &texts);
    }

    #[test]
    fn what_is_at_fault() {
        let (narrow, wide) = (Layout::Narrow, Layout::Wide);
        let texts = ["a wide sheet", "some room"];
        assert_shown(shown_of(wide, &WIDE_A[..19], 20, 14), wide, 14, &texts);
        let texts = ["a narrow sheet", "no room", "no word"];
        assert_shown(shown_of(narrow, &[], 0, 2), narrow, 2, &texts);
        let texts = ["a wide sheet", "some room", "more than 64 places besides"];
        let city = [0xA000_0041, 0x1000_1001];
        assert_shown(shown_of(narrow, &city, 1, 8), narrow, 8, &texts);
    }
}
