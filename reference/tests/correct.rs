//! Late corrections: the worked example, which revision counts, what clashes, and what
//! is written of sheets that are right.

mod common;

use common::*;
use reference::builder::SheetBuilder;
use reference::correct::{self, Aim, Correction};
use reference::generate::corrections;
use reference::generate::random::Random;
use reference::generate::tools::Given;
use reference::generate::valid;
use reference::layout::{Front, Layout};
use reference::tool::Outcome;
use reference::words::{self, kinds};
use reference::worked::{A_CORRECTED, CORRECTIONS_OF_A, ONE_WAY, WIDE_A};

/// The words of a sheet that is corrected, written into just as much room as they take,
/// and into more.
fn written(sheet: &[u32], list: &[u32]) -> Vec<u32> {
    let needed = sheet.len();
    let exact = corrected(&Given::of(&[sheet, list], needed));
    assert_eq!(exact.number, 0);
    assert_eq!(exact.outcome(), Some(Outcome { words: needed as u64, ..Outcome::default() }));
    for more in [1, 2, 100] {
        let longer = corrected(&Given::of(&[sheet, list], needed + more));
        assert_eq!((longer.number, &longer.result), (0, &exact.result));
        assert_eq!(longer.output[..needed * 4], exact.output);
        assert_eq!(longer.output[needed * 4..], vec![0; more * 4]);
    }
    exact.written()
}

fn refused_with(sheet: &[u32], list: &[u32]) -> (u64, u64) {
    tool_refused(&corrected(&Given::of(&[sheet, list], sheet.len())))
}

/// Example A's correction of place 0 at time 1.
fn of_a(revision: u32, value: i32) -> Correction {
    Correction { revision, aim: Aim { signal: 0, time: 1, place: 0 }, value }
}

/// Example A's correction of place 1 at time 0.
fn of_another(revision: u32, value: i32) -> Correction {
    Correction { revision, aim: Aim { signal: 0, time: 0, place: 1 }, value }
}

/// What example A has at place 0 and time 1 after these corrections.
fn sample_of_a(corrections: &[Correction]) -> i32 {
    words::signed27(written(&EXAMPLE_A, &correct::list(corrections))[5])
}

/// Where the corrections of example A are said to clash.
fn clash_at(corrections: &[Correction]) -> u64 {
    let (number, place) = refused_with(&EXAMPLE_A, &correct::list(corrections));
    assert_eq!(number, 20);
    place
}

#[test]
fn the_worked_example() {
    assert_eq!(written(&EXAMPLE_A, &CORRECTIONS_OF_A), A_CORRECTED);
    assert_eq!(correct::list(&[of_a(1, 8), of_a(2, -8), of_another(1, 3)]), CORRECTIONS_OF_A);
    let a_fourth = [&CORRECTIONS_OF_A[..], &[0xB010_0001, 0xC000_0000, 0x4000_0007]].concat();
    assert_eq!(refused_with(&EXAMPLE_A, &a_fourth), (20, 9));
    let mut without_revision = CORRECTIONS_OF_A;
    without_revision[0] = 0xB000_0001;
    assert_eq!(refused_with(&EXAMPLE_A, &without_revision), (19, 0));
}

/// The files that hosts are tried on.
#[test]
fn the_worked_example_as_files() {
    let files = [
        &include_bytes!("../examples/a.sheet")[..],
        include_bytes!("../examples/a.corrections"),
        include_bytes!("../examples/a_corrected.sheet"),
    ];
    let [sheet, list, expected] = files.map(|file| words::from_bytes(file).expect("whole words"));
    assert_eq!(written(&sheet, &list), expected);
    assert_eq!((list, expected), (CORRECTIONS_OF_A.to_vec(), A_CORRECTED.to_vec()));
}

/// A wide sheet takes the same list: places have 16 bits in it whatever the layout.
#[test]
fn both_layouts_are_corrected_alike() {
    let mut expected = WIDE_A;
    expected[5..7].copy_from_slice(&A_CORRECTED[4..6]);
    assert_eq!(written(&WIDE_A, &CORRECTIONS_OF_A), expected);
}

#[test]
fn an_empty_list() {
    for sheet in [&EXAMPLE_A[..], &WIDE_A, &ONE_WAY] {
        assert_eq!(written(sheet, &[]), sheet);
    }
}

/// Time outermost, then place, then signal: each sample of a sheet by itself.
#[test]
fn every_sample_can_be_aimed_at() {
    let (places, signals, samples) = (3, 2, 4);
    let numbers: Vec<i32> = (0..24).collect();
    for layout in Layout::BOTH {
        let sheet = SheetBuilder::laid_out(layout, places, signals, samples).one_way(2, 1, 7);
        let sheet = sheet.samples(&numbers).truth().end();
        for (time, place, signal) in (0..24).map(|at| (at / 6, at / 2 % 3, at % 2)) {
            let aim = Aim { signal, time, place };
            let list = correct::list(&[Correction { revision: 255, aim, value: -1 }]);
            let mut expected = sheet.clone();
            let at = layout.front_words() + 2 + (time * 6 + place * 2 + signal) as usize;
            expected[at] = 0x47FF_FFFF;
            assert_eq!(written(&sheet, &list), expected);
        }
    }
}

/// Sizes that need all bits of their fields.
#[test]
fn samples_far_out() {
    for (places, signals, samples) in [(1024, 1, 2), (1, 16, 1024), (300, 2, 1)] {
        let count = (places * signals * samples) as usize;
        let sheet = SheetBuilder::wide(places, signals, samples).samples(&vec![0; count]);
        let sheet = sheet.truth().end();
        let aim = Aim { signal: signals - 1, time: samples - 1, place: places - 1 };
        let list = correct::list(&[Correction { revision: 1, aim, value: 1 }]);
        let mut expected = sheet.clone();
        expected[1 + count] = 0x4000_0001;
        assert_eq!(written(&sheet, &list), expected);
    }
}

/// Wherever it stands in the list.
#[test]
fn the_highest_revision_counts() {
    let sent = [of_a(3, 30), of_a(9, 90), of_a(200, 2000)];
    for order in [[0, 1, 2], [0, 2, 1], [1, 0, 2], [1, 2, 0], [2, 0, 1], [2, 1, 0]] {
        assert_eq!(sample_of_a(&order.map(|at| sent[at])), 2000);
    }
    for (lower, higher) in [(1, 2), (127, 128), (1, 255), (254, 255), (128, 255), (63, 64)] {
        assert_eq!(sample_of_a(&[of_a(lower, 7), of_a(higher, -7)]), -7);
        assert_eq!(sample_of_a(&[of_a(higher, -7), of_a(lower, 7)]), -7);
    }
    let mut all: Vec<Correction> = (1..=255).map(|revision| of_a(revision, -5)).collect();
    all[254].value = 5;
    for seed in 0..20 {
        Random::new(seed).shuffle(&mut all);
        assert_eq!(sample_of_a(&all), 5);
    }
}

/// As it was sent, at both ends of what a sample can be, and as it is already.
#[test]
fn the_value_is_written() {
    for value in [-67_108_864, -1, 0, 1, 67_108_863] {
        assert_eq!(sample_of_a(&[of_a(1, value)]), value);
    }
}

#[test]
fn unlike_values_of_equal_revision_clash() {
    assert_eq!(clash_at(&[of_a(7, 1), of_a(7, 2)]), 3);
    assert_eq!(clash_at(&[of_a(255, -1), of_another(255, 1), of_a(255, 1)]), 6);
    assert_eq!(sample_of_a(&[of_a(7, 1), of_another(7, 2)]), 1);
    assert_eq!(sample_of_a(&[of_a(7, 1), of_a(8, 2)]), 2);
}

/// Wherever the higher revision stands, before both, between them or behind.
#[test]
fn a_clash_below_the_highest_revision() {
    let higher = of_a(9, 5);
    assert_eq!(clash_at(&[higher, of_a(7, 1), of_a(7, 2)]), 6);
    assert_eq!(clash_at(&[of_a(7, 1), higher, of_a(7, 2)]), 6);
    assert_eq!(clash_at(&[of_a(7, 1), of_a(7, 2), higher]), 3);
}

#[test]
fn the_same_sent_again_is_no_clash() {
    assert_eq!(sample_of_a(&[of_a(7, 3); 2]), 3);
    assert_eq!(sample_of_a(&[of_a(7, 3), of_another(7, 4), of_a(9, 1), of_a(7, 3)]), 1);
    assert_eq!(sample_of_a(&[of_a(9, 1); 400]), 1);
}

/// The first that has an unlike one before it, wherever that one is.
#[test]
fn the_earliest_clash_is_told() {
    assert_eq!(clash_at(&[of_a(7, 1), of_a(7, 1), of_a(7, 2), of_a(7, 1)]), 6);
    assert_eq!(clash_at(&[of_a(7, 1), of_a(7, 2), of_a(7, 1), of_a(7, 2)]), 3);
    let across = [of_a(7, 1), of_another(7, 1), of_another(7, 2), of_a(7, 2)];
    assert_eq!(clash_at(&across), 6);
    let nested = [of_a(7, 1), of_another(7, 1), of_a(7, 2), of_another(7, 2)];
    assert_eq!(clash_at(&nested), 6);
}

/// What a sheet has after corrections, found without a map: for each sample the list
/// is searched for its highest revision.
fn searched(sheet: &[u32], corrections: &[Correction]) -> Vec<u32> {
    let front = Front::told(sheet);
    let samples = words::indices(sheet, |kind| kind == kinds::SAMPLE);
    let mut words = sheet.to_vec();
    for (index, &at) in samples.iter().enumerate() {
        let (row, signal) = (index / front.middle, index % front.middle);
        let (time, place) = (row / front.places, row % front.places);
        let [signal, time, place] = [signal, time, place].map(|number| number as u32);
        let of_sample = corrections.iter().filter(|sent| sent.aim == Aim { signal, time, place });
        let highest = of_sample.max_by_key(|sent| sent.revision);
        highest.into_iter().for_each(|sent| words[at] = sent.words()[2]);
    }
    words
}

/// Generated sheets with generated lists that do not clash, in whatever order.
#[test]
fn generated_lists() {
    for seed in 0..1500 {
        let mut random = Random::new(seed);
        let sheet = valid::sheet(&mut random, 80);
        let mut sent = corrections::right(&mut random, &Front::told(&sheet), sheet.len());
        let expected = searched(&sheet, &sent);
        assert_eq!(written(&sheet, &correct::list(&sent)), expected);
        assert_eq!(written(&expected, &correct::list(&sent)), expected);
        random.shuffle(&mut sent);
        assert_eq!(written(&sheet, &correct::list(&sent)), expected);
    }
}
