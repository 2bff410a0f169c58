//! Late corrections that are refused: every fault of a list at every word, what comes
//! before what, and what is lent.

mod common;

use common::*;
use reference::builder::SheetBuilder;
use reference::correct::{self, Aim, Correction};
use reference::generate::tools::Given;
use reference::layout::Layout;
use reference::words;
use reference::worked::{CORRECTIONS_OF_A, WIDE_A};

fn refused_with(sheet: &[u32], list: &[u32], room: usize) -> (u64, u64) {
    tool_refused(&corrected(&Given::of(&[sheet, list], room)))
}

/// A sheet of 3 places, 2 signals and 5 samples.
fn sheet(layout: Layout) -> Vec<u32> {
    SheetBuilder::laid_out(layout, 3, 2, 5).road(0, 2, 1).samples(&[0; 30]).truth().end()
}

/// The last correction that such a sheet can have.
const LAST: [u32; 3] = [0xBFF0_1004, 0xC000_0002, 0x47FF_FFFF];

/// At the first word: another kind, revision 0, a signal or a time too many.
const FAULTY_FIRSTS: [u32; 15] = [
    0x0FF0_1004,
    0x1FF0_1004,
    0x4FF0_1004,
    0xAFF0_1004,
    0xCFF0_1004,
    0xFFF0_1004,
    0xB000_1004,
    0xB000_0000,
    0xBFF0_2004,
    0xBFF1_0004,
    0xBFFF_F004,
    0xBFF0_1005,
    0xBFF0_1400,
    0xBFF0_1804,
    0xBFF0_1FFF,
];

/// At the second: another kind, each spare bit, a place too many.
const FAULTY_SECONDS: [u32; 21] = [
    0x0000_0002,
    0x4000_0002,
    0xB010_0002,
    0xD000_0002,
    0xA000_0002,
    0xC001_0002,
    0xC002_0002,
    0xC004_0002,
    0xC008_0002,
    0xC010_0002,
    0xC020_0002,
    0xC040_0002,
    0xC080_0002,
    0xC100_0002,
    0xC200_0002,
    0xC400_0002,
    0xC800_0002,
    0xC000_0003,
    0xC000_0102,
    0xC000_1000,
    0xC000_FFFF,
];

/// At the third: another kind, also that of a count that never came, and bit 27.
const FAULTY_THIRDS: [u32; 9] = [
    0x0000_0000,
    0x0000_0001,
    0x3000_0001,
    0x5000_0001,
    0x8000_0001,
    0xB010_0000,
    0xC000_0000,
    0x4800_0000,
    0x4FFF_FFFF,
];

/// Alone, and behind others that are right, in both layouts.
#[test]
fn every_fault_of_a_word() {
    let faulty = [&FAULTY_FIRSTS[..], &FAULTY_SECONDS, &FAULTY_THIRDS];
    for (layout, before) in Layout::BOTH.into_iter().flat_map(|layout| [(layout, 0), (layout, 4)]) {
        let sheet = sheet(layout);
        let right = LAST.repeat(before + 1);
        assert_eq!(corrected(&Given::of(&[&sheet, &right], sheet.len())).number, 0);
        for (at, &words) in faulty.iter().enumerate() {
            for &word in words {
                let place = before * 3 + at;
                let mut list = right.clone();
                list[place] = word;
                // Faults behind it are not told.
                for behind in [&[][..], &[0], &LAST, &[0xB000_0000, 0, 0]] {
                    let list = [&list[..], behind].concat();
                    assert_eq!(refused_with(&sheet, &list, sheet.len()), (19, place as u64));
                }
            }
        }
    }
}

/// At the list's length.
#[test]
fn words_that_are_missing() {
    for sheet in Layout::BOTH.map(sheet) {
        let list = LAST.repeat(3);
        for length in [1, 2, 4, 5, 7, 8] {
            let cut = &list[..length];
            assert_eq!(refused_with(&sheet, cut, sheet.len()), (19, length as u64));
        }
    }
}

/// Of the words that are there the first faulty one is told, also in a correction that
/// is cut.
#[test]
fn faults_come_before_words_that_are_missing() {
    let sheet = sheet(Layout::Narrow);
    assert_eq!(refused_with(&sheet, &[LAST[0], 0], 99), (19, 1));
    assert_eq!(refused_with(&sheet, &[0], 99), (19, 0));
    assert_eq!(refused_with(&sheet, &[&LAST[..], &[LAST[1]]].concat(), 99), (19, 3));
}

/// Beyond 64 places and beyond what 8 bits hold.
#[test]
fn places_of_a_city() {
    for places in [65, 300, 1024] {
        let sheet = SheetBuilder::wide(places, 1, 1).samples(&vec![0; places as usize]);
        let sheet = sheet.truth().end();
        let list = |place: u32| [0xB010_0000, 0xC000_0000 | place, 0x4000_0000];
        let number = |place: u32| corrected(&Given::of(&[&sheet, &list(place)], 2000)).number;
        assert_eq!([0, 64, places - 1].map(number), [0; 3]);
        for place in [places, places + 1, 2048 | places, 0xFFFF] {
            assert_eq!(refused_with(&sheet, &list(place), 2000), (19, 1));
        }
    }
}

/// Two corrections of example A that clash: 20 at 3.
const CLASH: [u32; 6] =
    [0xB010_0001, 0xC000_0000, 0x4000_0008, 0xB010_0001, 0xC000_0000, 0x4000_0009];

/// "20, after 19": whatever stands first in the list.
#[test]
fn a_fault_comes_before_a_clash() {
    assert_eq!(refused_with(&EXAMPLE_A, &CLASH, 19), (20, 3));
    let behind =
        [(&[0][..], 6), (&[0xB000_0000], 6), (&[0xB010_0000], 7), (&[0xB010_0000, 0xC000_0002], 7)];
    for (behind, place) in behind {
        let list = [&CLASH[..], behind].concat();
        assert_eq!(refused_with(&EXAMPLE_A, &list, 0), (19, place));
    }
    assert_eq!(refused_with(&EXAMPLE_A, &CLASH[..5], 0), (19, 5));
}

/// "A short output last", at the sheet's length, whatever the list's is.
#[test]
fn number_15_is_exact_and_last() {
    let longer = CORRECTIONS_OF_A.repeat(9);
    for list in [&[][..], &CORRECTIONS_OF_A, &longer] {
        for (sheet, needed) in [(&EXAMPLE_A[..], 19), (&WIDE_A, 20)] {
            for room in 0..needed {
                assert_eq!(refused_with(sheet, list, room), (15, needed as u64));
            }
            assert_eq!(corrected(&Given::of(&[sheet, list], needed)).number, 0);
        }
    }
    for room in [0, 1, 18] {
        assert_eq!(refused_with(&EXAMPLE_A, &CLASH, room), (20, 3));
        assert_eq!(refused_with(&EXAMPLE_A, &[0], room), (19, 0));
        assert_eq!(refused_with(&EXAMPLE_A, &CLASH[..1], room), (19, 1));
    }
}

/// A sheet's own fault is told as the judge tells it, whatever the list is and
/// whatever room there is.
#[test]
fn numbers_of_the_sheet() {
    for (words, told) in sheets_at_fault() {
        for (list, room) in [(&[][..], 0), (&[0], 5000), (&CLASH, 0), (&CLASH[..4], 5000)] {
            assert_eq!(refused_with(&words, list, room), told);
        }
    }
}

/// "No 1 arises": no sheet needs a distance here, however many places it has.
#[test]
fn number_1_never_arises() {
    let sheet = SheetBuilder::wide(1024, 1, 1).samples(&[0; 1024]).truth().end();
    let aim = Aim { signal: 0, time: 0, place: 1023 };
    let list = correct::list(&[Correction { revision: 1, aim, value: 1 }]);
    assert_eq!(corrected(&Given::of(&[&sheet, &list], sheet.len())).number, 0);
    assert_eq!(refused_with(&[0xA000_0400, 0x1000_1001], &list, 0), (8, 2));
}

/// What is lent beside the bytes of a sheet and of a list.
fn lent(sheet: &[u8], list: &[u8], output: usize, result: usize) -> Given {
    Given { inputs: vec![sheet.to_vec(), list.to_vec()], output, result }
}

#[test]
fn number_16_wrong_lengths() {
    let [sheet, list] = [&EXAMPLE_A[..], &CORRECTIONS_OF_A].map(words::to_bytes);
    let mut given = Vec::new();
    for odd in 1..4 {
        given.push(lent(&sheet[..sheet.len() - odd], &list, 80, 24));
        given.push(lent(&sheet, &list[..list.len() - odd], 80, 24));
        given.push(lent(&sheet, &list, 80 + odd, 24));
        // Before a missing head, before a missing word of the list, and before 15.
        given.push(lent(&sheet[..odd], &list, 80, 24));
        given.push(lent(&sheet, &list[..odd], 80, 24));
        given.push(lent(&[], &[], odd, 24));
        given.push(lent(&sheet, &list[..4], odd, 24));
        given.push(lent(&sheet, &words::to_bytes(&CLASH), odd, 24));
    }
    given.extend([0, 1, 8, 16, 23, 25, 32, 40].map(|result| lent(&sheet, &list, 80, result)));
    given.push(lent(&sheet[..5], &list[..7], 3, 7));
    for given in &given {
        assert_tool_told_16(&corrected(given));
    }
}
