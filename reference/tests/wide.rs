//! Wide sheets: example A laid out wide, what a wide sheet is refused for and
//! where, and networks beyond 64 places.

mod common;

use common::*;
use reference::builder::SheetBuilder;
use reference::fast::Fast;
use reference::generate::Case;
use reference::judge::Outcome;
use reference::left::Left;
use reference::words::{self, kinds};
use reference::worked::WIDE_A;

/// The answer to it: that of example A behind the kind 10 word, places 0.
const ANSWER: [u32; 21] = [
    0xA0000002, 0xD0004002, 0xE0000002, 0x90000005, 0xAFFFFFFE, 0x90000001, 0x90000004, 0xE0000001,
    0x90000005, 0x90000004, 0xE0000002, 0xAFFFFFFE, 0x90000005, 0x90000004, 0x90000001, 0xE0000002,
    0xAFFFFFFE, 0x90000005, 0x90000004, 0x90000001, 0xF0000014,
];

/// Words with so many distances and answer words lent.
fn lent(words: &[u32], distances: usize, answer_words: usize) -> Case {
    Case { distances: distances * 8, ..Case::of(words, answer_words) }
}

fn number_and_place(case: &Case) -> (u64, u64) {
    let left = judged(case);
    assert_refused(&left);
    (left.number, outcome(&left).place)
}

/// Example A laid out wide, with one word replaced.
fn with(index: usize, word: u32) -> Vec<u32> {
    let mut words = WIDE_A.to_vec();
    words[index] = word;
    words
}

#[test]
fn example_a_leaves_answer_distances_and_result() {
    for (distances_lent, words_lent) in [(4, 21), (5, 22), (4096, 30)] {
        let left = judged(&lent(&WIDE_A, distances_lent, words_lent));
        assert_eq!(left.number, 0);
        assert_eq!(answer_words(&left)[..21], ANSWER);
        assert!(answer_words(&left)[21..].iter().all(|&word| word == 0));
        assert_eq!(distances(&left, 4), [0, 3, 3, 0]);
        assert!(left.distances[32..].iter().all(|&byte| byte == 0));
        assert_eq!(outcome(&left), Outcome { words: 21, rounds: 1, yes: 11, ..Outcome::default() });
    }
}

/// The file that hosts are tried on.
#[test]
fn example_a_as_a_file() {
    let file = include_bytes!("../examples/wide.sheet");
    assert_eq!(file[..], words::to_bytes(&WIDE_A));
}

#[test]
fn number_1_under_places_squared() {
    for entries in 0..4 {
        assert_eq!(number_and_place(&lent(&WIDE_A, entries, 21)), (1, 0));
    }
}

#[test]
fn number_15_counts_the_kind_10_word() {
    assert_eq!(number_and_place(&lent(&WIDE_A, 4, 20)), (15, 20));
    assert_eq!(number_and_place(&lent(&WIDE_A, 4, 0)), (15, 20));
}

#[test]
fn number_17_the_count_or_a_spare_bit() {
    for payload in [0, 1025, 2048, 0xFFFF] {
        assert_eq!(refused(&with(0, words::word(kinds::WIDE, payload))), (17, 0));
    }
    for bit in 16..28 {
        assert_eq!(refused(&with(0, 0xA000_0002 | 1 << bit)), (17, 0));
    }
    // Alone, and before the second word is looked at.
    assert_eq!(refused(&[0xA000_0000]), (17, 0));
    assert_eq!(refused(&[0xA000_0000, 0x1000_1001]), (17, 0));
    assert_eq!(refused(&[0xA000_0401, 0x2000_0001]), (17, 0));
}

#[test]
fn number_17_no_head_with_places_0() {
    assert_eq!(refused(&[0xA000_0002]), (17, 1));
    for kind in (0..16).filter(|&kind| kind != kinds::HEAD) {
        assert_eq!(refused(&with(1, words::word(kind, 0x0001002))), (17, 1));
    }
    for places in [1, 2, 64, 128, 255] {
        assert_eq!(refused(&with(1, 0x1000_1002 | places << 20)), (17, 1));
    }
    // Before signals and samples are looked at.
    assert_eq!(refused(&with(1, 0x1020_0000)), (17, 1));
    let narrow_behind = [&[0xA000_0002][..], &EXAMPLE_A].concat();
    assert_eq!(refused(&narrow_behind), (17, 1));
}

#[test]
fn number_3_at_the_head() {
    for sizes in [0x00002, 0x11002, 0xFF002, 0x01000, 0x01401, 0x01FFF, 0] {
        assert_eq!(refused(&with(1, 0x1000_0000 | sizes)), (3, 1));
    }
    assert_eq!(refused(&[0xA000_0001, 0x1000_1000, 0x4000_0000]), (3, 1));
    // The limits themselves pass, and samples are missed then.
    assert_eq!(refused(&with(1, 0x1001_0400)), (8, 8));
}

/// After 17 and 3, before the roads, the answer and the words that are missing.
#[test]
fn number_1_in_its_order() {
    let with_three = |words: &[u32]| number_and_place(&lent(words, 3, 0));
    assert_eq!(with_three(&with(0, 0xA001_0002)), (17, 0));
    assert_eq!(with_three(&with(1, 0x2000_1002)), (17, 1));
    assert_eq!(with_three(&with(1, 0x1000_0002)), (3, 1));
    assert_eq!(with_three(&with(2, 0x2F00_0001)), (1, 0));
    assert_eq!(with_three(&WIDE_A[..2]), (1, 0));
    assert_eq!(number_and_place(&lent(&WIDE_A[..2], 4, 0)), (8, 2));
    // To a narrow sheet it comes before all else, as ever.
    assert_eq!(with_three(&[0x1000_0000]), (1, 0));
    assert_eq!(with_three(&[]), (1, 0));
}

#[test]
fn numbers_4_to_7_at_wide_roads() {
    for bit in 24..26 {
        assert_eq!(refused(&with(2, 0x2000_0001 | 1 << bit)), (4, 2));
        assert_eq!(refused(&with(2, 0x20FF_FFFF | 1 << bit)), (4, 2));
    }
    // First above second by 8 bits, equal by 12, second 2, 256 and 1024.
    for pair in [0x00_0100, 0x00_1000, 0x00_0000, 0x00_1001, 0x00_0002, 0x00_0400, 0xFF_FFFF] {
        assert_eq!(refused(&with(2, 0x2000_0000 | pair)), (5, 2));
    }
    let roads = |pairs: [(u32, u32); 2]| {
        let sheet = SheetBuilder::wide(300, 1, 1);
        let sheet = pairs.iter().fold(sheet, |sheet, &(one, other)| sheet.road(one, other, 1));
        let words = sheet.samples(&[0; 300]).truth().end();
        outcome(&judged_by::<Fast>(&Case::of(&words, 400)))
    };
    let told = |outcome: Outcome| (outcome.number, outcome.place);
    assert_eq!(told(roads([(0, 299), (1, 256)])), (0, 0));
    assert_eq!(told(roads([(1, 257), (1, 256)])), (6, 4));
    assert_eq!(told(roads([(256, 257), (0, 258)])), (6, 4));
    assert_eq!(told(roads([(256, 257), (256, 257)])), (6, 4));
    assert_eq!(told(roads([(256, 257), (256, 300)])), (5, 4));
    assert_eq!(refused(&with(3, 0x3000_0000)), (7, 3));
    assert_eq!(refused(&WIDE_A[..3]), (7, 3));
}

/// A path, one sample, one line that is true, with so many distances lent.
fn path(places: u32, distances: usize) -> Left {
    let sheet = SheetBuilder::wide(places, 1, 1);
    let greatest = (1 << 28) - 1;
    let sheet = (1..places).fold(sheet, |sheet, place| sheet.road(place - 1, place, greatest));
    let words = sheet.samples(&vec![0; places as usize]).truth().end();
    judged_by::<Fast>(&lent(&words, distances, places as usize + 4))
}

#[test]
fn a_path_of_1024_places() {
    let left = path(1024, 1024 * 1024);
    assert_eq!(outcome(&left), Outcome { words: 1028, yes: 1024, ..Outcome::default() });
    assert_eq!(left.distance(1023), Some(274_609_470_465));
    assert_eq!(left.distance(1024 * 1023), Some(274_609_470_465));
    assert_eq!(answer_words(&left)[..3], [0xA000_0400, 0xD000_1001, 0xE000_0001]);
    let short = path(1024, 1024 * 1024 - 1);
    assert_refused(&short);
    assert_eq!(short.number, 1);
}

#[test]
fn as_many_distances_as_places_squared() {
    for places in [1, 2, 63, 64, 65, 66, 300] {
        let squared = (places * places) as usize;
        assert_eq!(path(places, squared).number, 0);
        assert_eq!(path(places, squared + 100).number, 0);
        assert_eq!(path(places, squared - 1).number, 1);
    }
}
