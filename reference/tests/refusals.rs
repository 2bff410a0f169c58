//! Refusals 2 to 14: every number, at its place.
//!
//! The sheet that is damaged, word by word:
//!
//! ```text
//!  0 head: 3 places, 2 signals, 2 samples
//!  1 road 0-1    2 its weight
//!  3 road 1-2    4 its weight
//!  5..=16 the twelve samples
//! 17 line 0, at least    18 its constant
//! 19 line 1, true
//! 20 line 2, not 0
//! 21 line 3, until       22 lower    23 upper
//! 24 line 4, surround    25 lower    26 upper
//! 27 end
//! ```

mod common;

use common::{judged_words, outcome, refused};
use reference::builder::SheetBuilder;
use reference::words::{kinds, word};

fn table() -> SheetBuilder {
    SheetBuilder::new(3, 2, 2)
        .road(0, 1, 1)
        .road(1, 2, 4)
        .samples(&[3, -3, 0, 0, 1, -1, 7, 7, -9, 9, 2, 2])
        .at_least(1, -1)
        .truth()
        .line(3, 0, 0)
        .bounded(5, 0, 2, (1, 1))
        .bounded(7, 1, 2, (0, 9))
}

fn sheet() -> Vec<u32> {
    table().end()
}

/// The sheet with one word replaced.
fn with(index: usize, word: u32) -> Vec<u32> {
    let mut words = sheet();
    words[index] = word;
    words
}

/// The sheet cut before an index.
fn cut(index: usize) -> Vec<u32> {
    sheet()[..index].to_vec()
}

/// The words of kinds other than those named.
fn kinds_but(avoid: &[u32], payload: u32) -> Vec<u32> {
    let kinds = (0..16).filter(|kind| !avoid.contains(kind));
    kinds.map(|kind| word(kind, payload)).collect()
}

#[test]
fn the_sheet_itself_is_accepted() {
    assert_eq!(judged_words(&sheet()).number, 0);
    assert_eq!(sheet().len(), 28);
}

#[test]
fn every_cut_is_a_missing_word() {
    for length in 0..28 {
        let number = match length {
            0 => 2,
            2 | 4 => 7,
            1 | 3 | 5..=16 => 8,
            17 => 10,
            18 | 22 | 23 | 25 | 26 => 12,
            _ => 14,
        };
        assert_eq!(refused(&cut(length)), (number, length as u64));
    }
}

#[test]
fn number_2_head_of_another_kind() {
    for word in kinds_but(&[kinds::HEAD, kinds::WIDE], 0x0302002) {
        assert_eq!(refused(&with(0, word)), (2, 0));
    }
    // Kind 10 makes the sheet wide, whose front has faults of its own.
    assert_eq!(refused(&with(0, 0xA030_2002)), (17, 0));
    assert_eq!(refused(&[]), (2, 0));
    assert_eq!(refused(&[0]), (2, 0));
}

#[test]
fn number_3_sizes_outside_their_limits() {
    let head = |n, v, t| SheetBuilder::new(n, v, t).words()[0];
    for (n, v, t) in [(0, 2, 2), (65, 2, 2), (255, 2, 2), (3, 0, 2), (3, 17, 2)] {
        assert_eq!(refused(&with(0, head(n, v, t))), (3, 0));
    }
    for (n, v, t) in [(3, 255, 2), (3, 2, 0), (3, 2, 1025), (3, 2, 4095), (0, 0, 0)] {
        assert_eq!(refused(&with(0, head(n, v, t))), (3, 0));
    }
    // The limits themselves pass, and other words are missed then.
    assert_eq!(refused(&with(0, head(64, 16, 1024))), (8, 17));
    assert_eq!(refused(&[head(64, 16, 1024)]), (8, 1));
}

#[test]
fn number_4_spare_bits_of_a_road() {
    for bit in 16..26 {
        assert_eq!(refused(&with(1, 0x2000_0001 | 1 << bit)), (4, 1));
        assert_eq!(refused(&with(3, 0x2000_0102 | 1 << bit)), (4, 3));
    }
    // It comes before the faults of the pair.
    assert_eq!(refused(&with(3, 0x2001_FFFF)), (4, 3));
    assert_eq!(refused(&with(3, 0x2001_0001)), (4, 3));
}

#[test]
fn number_5_places_of_a_road() {
    for pair in [0x0100, 0x0000, 0x0101, 0x0003, 0x0203, 0x00FF, 0xFFFF, 0xFF00] {
        assert_eq!(refused(&with(1, 0x2000_0000 | pair)), (5, 1));
        assert_eq!(refused(&with(3, 0x2000_0000 | pair)), (5, 3));
    }
}

#[test]
fn number_6_pairs_out_of_order() {
    assert_eq!(refused(&with(3, 0x2000_0001)), (6, 3));
    let mut exchanged = sheet();
    exchanged.swap(1, 3);
    assert_eq!(refused(&exchanged), (6, 3));
    // First, then second: 0-2 comes after 0-1, but not after 1-2.
    assert_eq!(judged_words(&with(3, 0x2000_0002)).number, 0);
    assert_eq!(refused(&with(1, 0x2000_0102)), (6, 3));
    let later = SheetBuilder::new(3, 1, 1).road(1, 2, 1).road(0, 2, 1);
    assert_eq!(refused(&later.samples(&[0; 3]).truth().end()), (6, 3));
}

#[test]
fn number_7_weights() {
    for index in [2, 4] {
        assert_eq!(refused(&with(index, 0x3000_0000)), (7, index as u64));
        for word in kinds_but(&[kinds::ROAD_WEIGHT], 1) {
            assert_eq!(refused(&with(index, word)), (7, index as u64));
        }
        assert_eq!(judged_words(&with(index, 0x3FFF_FFFF)).number, 0);
    }
}

#[test]
fn number_8_samples_of_another_kind() {
    for index in 5..=16 {
        for word in kinds_but(&[kinds::SAMPLE, kinds::ROAD_PLACES], 0) {
            assert_eq!(refused(&with(index, word)), (8, index as u64));
        }
    }
    // Where a road could begin, kind 2 begins one; later it is no sample.
    assert_eq!(refused(&with(5, 0x2000_0001)), (6, 5));
    assert_eq!(refused(&with(6, 0x2000_0001)), (8, 6));
    // A weight where a road could begin ends the roads.
    assert_eq!(refused(&with(1, 0x3000_0001)), (8, 1));
    // Without one sample, the line's word stands in the last one's place.
    let mut words = sheet();
    words.remove(9);
    assert_eq!(refused(&words), (8, 16));
}

#[test]
fn number_9_bit_27_of_a_sample() {
    for index in [5, 10, 16] {
        assert_eq!(refused(&with(index, 0x4800_0000)), (9, index as u64));
        assert_eq!(refused(&with(index, 0x4FFF_FFFF)), (9, index as u64));
        assert_eq!(judged_words(&with(index, 0x47FF_FFFF)).number, 0);
    }
}

#[test]
fn number_10_no_first_line() {
    for word in kinds_but(&[kinds::LINE], 17) {
        assert_eq!(refused(&with(17, word)), (10, 17));
    }
    let empty = SheetBuilder::new(1, 1, 1).samples(&[0]);
    assert_eq!(refused(&empty.clone().end()), (10, 2));
    assert_eq!(refused(&empty.clone().words()), (10, 2));
    assert_eq!(refused(&empty.samples(&[0]).truth().end()), (10, 2));
}

#[test]
fn number_10_a_65th_line() {
    let lines = |count: usize| {
        let sheet = SheetBuilder::new(1, 1, 1).samples(&[0]);
        (0..count).fold(sheet, |sheet, _| sheet.truth())
    };
    assert_eq!(outcome(&judged_words(&lines(64).end())).yes, 64);
    assert_eq!(refused(&lines(65).end()), (10, 66));
    assert_eq!(refused(&lines(65).words()), (10, 66));
    // Whatever else is wrong with the 65th.
    assert_eq!(refused(&lines(64).line(16, 1, 1).words()), (10, 66));
    assert_eq!(refused(&lines(64).line(1, 0, 0).words()), (10, 66));
    // Other faults before it come first.
    assert_eq!(refused(&lines(63).line(16, 0, 0).truth().end()), (11, 65));
}
