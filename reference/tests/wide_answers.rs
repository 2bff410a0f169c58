//! Wide answers looked up and printed.

mod common;

use common::*;
use reference::builder::SheetBuilder;
use reference::fast::Fast;
use reference::generate::Case;
use reference::lookup::lookup;
use reference::print::print;
use reference::words::{self, kinds};
use reference::worked::WIDE_A;

/// The answer to example A laid out wide, with zeros after its end.
fn answer() -> Vec<u32> {
    answer_words(&judged(&Case::of(&WIDE_A, 25)))
}

fn look(words: &[u32], line: u64, sample: u64, place: u64) -> u64 {
    lookup(&words::to_bytes(words), line, sample, place)
}

/// Whether the words are still a whole answer: verdict 0, 0, 0 is there.
fn whole_with(index: usize, word: u32) -> bool {
    let mut words = answer();
    words[index] = word;
    look(&words, 0, 0, 0) != 0
}

#[test]
fn inside_and_outside() {
    let words = answer();
    let narrow = answer_words(&judged_words(&EXAMPLE_A));
    let points =
        (0..5).flat_map(|line| (0..3).flat_map(move |at| (0..3).map(move |p| (line, at, p))));
    for (line, sample, place) in points {
        assert_eq!(look(&words, line, sample, place), look(&narrow, line, sample, place));
    }
    assert_eq!([look(&words, 0, 0, 0), look(&words, 0, 0, 1), look(&words, 0, 0, 2)], [1, 2, 0]);
}

#[test]
fn the_kind_10_word() {
    for kind in (0..16).filter(|&kind| kind != kinds::WIDE) {
        assert!(!whole_with(0, words::word(kind, 2)));
    }
    for count in [0, 1, 3, 1025, 0xFFFF] {
        assert!(!whole_with(0, words::word(kinds::WIDE, count)));
    }
    for bit in 16..28 {
        assert!(!whole_with(0, 0xA000_0002 | 1 << bit));
    }
    assert!(whole_with(0, 0xA000_0002));
}

#[test]
fn the_head_behind_it() {
    for kind in (0..16).filter(|&kind| kind != kinds::ANSWER_HEAD) {
        assert!(!whole_with(1, words::word(kind, 0x0004002)));
    }
    for sizes in [0x0204002, 0x0104002, 0x8004002, 0x0000002, 0x0041002, 0x0004000, 0x0004401] {
        assert!(!whole_with(1, words::word(kinds::ANSWER_HEAD, sizes)));
    }
    assert!(whole_with(1, 0xD000_4003) && whole_with(1, 0xD000_4400));
    // A narrow answer's head must have places.
    let without_first: Vec<u32> = answer()[1..].to_vec();
    assert_eq!(look(&without_first, 0, 0, 0), 0);
}

#[test]
fn every_cut() {
    let words = answer();
    for length in 0..=25 {
        assert_eq!(look(&words[..length], 0, 0, 0) != 0, length >= 21);
    }
    for count in [19, 21, 20 | 1 << 27] {
        assert!(!whole_with(20, words::word(kinds::END, count)));
    }
}

/// So many places without a road, numbered by their only sample.
fn numbered(places: u32) -> Vec<u32> {
    let numbers: Vec<i32> = (0..places as i32).collect();
    SheetBuilder::wide(places, 1, 1).samples(&numbers).at_least(0, places as i32 / 2).end()
}

#[test]
fn places_above_63_and_255() {
    let left = judged_by::<Fast>(&Case::of(&numbered(1024), 1028));
    for (place, expected) in [(0, 2), (63, 2), (64, 2), (511, 2), (512, 1), (1023, 1), (1024, 0)] {
        assert_eq!(lookup(&left.answer, 0, 0, place), expected);
    }
}

/// The rows of example A with a word more.
#[test]
fn printed_as_a_narrow_one() {
    let [wide, narrow] =
        [&WIDE_A[..], &EXAMPLE_A].map(|words| print::<Fast>(&words::to_bytes(words)));
    assert_eq!(wide, narrow.replace("accepted 20", "accepted 21"));
    assert!(wide.starts_with("accepted 21 1 11\n0 0 yes 5 no -2\n"));
}

/// The program lends 4,096 distances: as many as 64 places need.
#[test]
fn printed_up_to_64_places() {
    let printed = |words: &[u32]| print::<Fast>(&words::to_bytes(words));
    assert!(printed(&numbered(64)).starts_with("accepted 68 0 32\n0 0 no -32 no -31 "));
    assert_eq!(printed(&numbered(65)), "refused 1 0\n");
    assert_eq!(printed(&numbered(1024)), "refused 1 0\n");
    assert_eq!(printed(&numbered(1025)), "refused 17 0\n");
    let mut no_signal = numbered(65);
    no_signal[1] = 0x1000_0001;
    assert_eq!(printed(&no_signal), "refused 3 1\n");
}
