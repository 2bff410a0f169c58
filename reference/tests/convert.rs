//! The converter: example A to wide and back, what is refused and where, what is
//! lent, and sheets of both layouts there and back.

mod common;

use common::*;
use reference::builder::SheetBuilder;
use reference::fast::Fast;
use reference::generate::random::Random;
use reference::generate::tools::Given;
use reference::generate::{valid, Case};
use reference::judge;
use reference::layout::{Front, Layout};
use reference::tool::Outcome;
use reference::words::{self, kinds};
use reference::worked::WIDE_A;

const BOTH: [Layout; 2] = Layout::BOTH;

/// The number and place that words are refused with, with so many words of room.
fn refused_with(layout: Layout, words: &[u32], room: usize) -> (u64, u64) {
    tool_refused(&converted(layout, &Given::of(&[words], room)))
}

/// The words of a valid sheet in a layout, written into just as much room as they
/// take, and into more.
fn written(words: &[u32], layout: Layout) -> Vec<u32> {
    let needed = match (Layout::of(words), layout) {
        (Layout::Narrow, Layout::Wide) => words.len() + 1,
        (Layout::Wide, Layout::Narrow) => words.len() - 1,
        _ => words.len(),
    };
    let exact = converted(layout, &Given::of(&[words], needed));
    assert_eq!(exact.number, 0);
    assert_eq!(exact.outcome(), Some(Outcome { words: needed as u64, ..Outcome::default() }));
    for more in [1, 2, 100] {
        let longer = converted(layout, &Given::of(&[words], needed + more));
        assert_eq!((longer.number, &longer.result), (0, &exact.result));
        assert_eq!(longer.output[..needed * 4], exact.output);
        assert_eq!(longer.output[needed * 4..], vec![0; more * 4]);
    }
    exact.written()
}

/// A wide sheet of so many places, one road, one sample each and one line.
fn wide_of(places: u32) -> Vec<u32> {
    let sheet = SheetBuilder::wide(places, 1, 1).road(0, places - 1, 7);
    sheet.samples(&vec![-3; places as usize]).truth().end()
}

#[test]
fn example_a_to_wide_and_back() {
    assert_eq!(written(&EXAMPLE_A, Layout::Wide), WIDE_A);
    assert_eq!(written(&WIDE_A, Layout::Narrow), EXAMPLE_A);
}

/// The files that hosts are tried on are each what the other is taken to.
#[test]
fn example_a_as_files() {
    let files =
        [&include_bytes!("../examples/a.sheet")[..], include_bytes!("../examples/wide.sheet")];
    let [narrow, wide] = files.map(|file| words::from_bytes(file).expect("whole words"));
    assert_eq!(written(&narrow, Layout::Wide), wide);
    assert_eq!(written(&wide, Layout::Narrow), narrow);
}

#[test]
fn a_sheet_already_in_that_layout() {
    assert_eq!(written(&EXAMPLE_A, Layout::Narrow), EXAMPLE_A);
    assert_eq!(written(&WIDE_A, Layout::Wide), WIDE_A);
    for places in [64, 65, 300, 1024] {
        assert_eq!(written(&wide_of(places), Layout::Wide), wide_of(places));
    }
}

/// Two roads between places of all six bits, and one place without a road.
#[test]
fn words_that_change() {
    let table = |sheet: SheetBuilder| sheet.samples(&[5; 64]).at_least(0, -9).end();
    let roads = |sheet: SheetBuilder| sheet.road(0, 63, 9).road(42, 63, (1 << 28) - 1);
    let narrow = table(roads(SheetBuilder::new(64, 1, 1)));
    let wide = table(roads(SheetBuilder::wide(64, 1, 1)));
    assert_eq!(narrow[..4], [0x1400_1001, 0x2000_003F, 0x3000_0009, 0x2000_2A3F]);
    assert_eq!(wide[..5], [0xA000_0040, 0x1000_1001, 0x2000_003F, 0x3000_0009, 0x2002_A03F]);
    assert_eq!(written(&narrow, Layout::Wide), wide);
    assert_eq!(written(&wide, Layout::Narrow), narrow);
    let lone = [0x1010_1001, 0x4000_0000, 0x5000_0000, 0xF000_0003];
    let wide = [0xA000_0001, 0x1000_1001, 0x4000_0000, 0x5000_0000, 0xF000_0004];
    assert_eq!(written(&lone, Layout::Wide), wide);
    assert_eq!(written(&wide, Layout::Narrow), lone);
}

/// Bits 27 and 26 of a road stay where they are, while its places move.
#[test]
fn directions_are_carried_over() {
    let table = |sheet: SheetBuilder| sheet.samples(&[5; 6]).truth().end();
    let roads = |sheet: SheetBuilder| sheet.road(2, 5, 1).one_way(3, 4, 7).one_way(5, 4, 8);
    let narrow = table(roads(SheetBuilder::new(6, 1, 1)));
    let wide = table(roads(SheetBuilder::wide(6, 1, 1)));
    let road_words = |words: &[u32]| [words[0], words[2], words[4]];
    assert_eq!(road_words(&narrow[1..]), [0x2000_0205, 0x2800_0304, 0x2400_0405]);
    assert_eq!(road_words(&wide[2..]), [0x2000_2005, 0x2800_3004, 0x2400_4005]);
    assert_eq!(written(&narrow, Layout::Wide), wide);
    assert_eq!(written(&wide, Layout::Narrow), narrow);
    assert_eq!([written(&narrow, Layout::Narrow), written(&wide, Layout::Wide)], [narrow, wide]);
}

/// At the sheet's length, whatever is to be written, also unaltered.
#[test]
fn number_15_is_exact() {
    for (sheet, layout, needed) in [
        (&EXAMPLE_A[..], Layout::Wide, 20),
        (&EXAMPLE_A, Layout::Narrow, 19),
        (&WIDE_A, Layout::Narrow, 19),
        (&WIDE_A, Layout::Wide, 20),
    ] {
        for room in 0..needed {
            assert_eq!(refused_with(layout, sheet, room), (15, sheet.len() as u64));
        }
        assert_eq!(converted(layout, &Given::of(&[sheet], needed)).number, 0);
    }
}

#[test]
fn number_18_above_64_places() {
    assert_eq!(Layout::of(&written(&wide_of(64), Layout::Narrow)), Layout::Narrow);
    for places in [65, 66, 128, 256, 320, 1024] {
        let words = wide_of(places);
        // With no room at all, a word short, enough, and more.
        for room in [0, words.len() - 2, words.len() - 1, words.len() + 9] {
            assert_eq!(refused_with(Layout::Narrow, &words, room), (18, 0));
        }
    }
}

/// A sheet's own fault is told as the judge tells it, whatever room there is.
#[test]
fn numbers_of_the_sheet() {
    for (words, told) in sheets_at_fault() {
        for (layout, room) in BOTH.into_iter().flat_map(|layout| [(layout, 0), (layout, 5000)]) {
            assert_eq!(refused_with(layout, &words, room), told);
        }
    }
}

#[test]
fn faults_of_lists_that_are_cut() {
    for layout in BOTH {
        assert_eq!(refused_with(layout, &EXAMPLE_A[..18], 20), (14, 18));
        assert_eq!(refused_with(layout, &[], 20), (2, 0));
        assert_eq!(refused_with(layout, &[], 0), (2, 0));
        assert_eq!(refused_with(layout, &WIDE_A[..1], 20), (17, 1));
    }
}

#[test]
fn a_fault_comes_before_number_18() {
    let words = wide_of(65);
    let cut = &words[..words.len() - 1];
    assert_eq!(refused_with(Layout::Narrow, cut, 100), (14, cut.len() as u64));
    assert_eq!(refused_with(Layout::Narrow, cut, 0), (14, cut.len() as u64));
}

/// "No 1 arises": no sheet needs a distance here, however many places it has.
#[test]
fn number_1_never_arises() {
    assert_eq!(written(&wide_of(1024), Layout::Wide).len(), wide_of(1024).len());
    assert_eq!(refused_with(Layout::Wide, &[0xA000_0400, 0x1000_1001], 0), (8, 2));
}

/// What is lent beside the bytes of a sheet.
fn lent(sheet: &[u8], output: usize, result: usize) -> Given {
    Given { inputs: vec![sheet.to_vec()], output, result }
}

#[test]
fn number_16_wrong_lengths() {
    let [sheet, city] = [EXAMPLE_A.to_vec(), wide_of(65)].map(|words| words::to_bytes(&words));
    let mut given = Vec::new();
    for odd in 1..4 {
        given.push(lent(&sheet[..sheet.len() - odd], 80, 24));
        given.push(lent(&sheet, 80 + odd, 24));
        // Before a missing head, before 18 and before 15.
        given.push(lent(&sheet[..odd], 80, 24));
        given.push(lent(&[], odd, 24));
        given.push(lent(&city, odd, 24));
        given.push(lent(&sheet, odd, 24));
    }
    given.extend([0, 1, 8, 16, 23, 25, 32, 40].map(|result| lent(&sheet, 80, result)));
    given.push(lent(&city[..5], 3, 7));
    for (given, layout) in given.iter().flat_map(|given| BOTH.map(|layout| (given, layout))) {
        assert_tool_told_16(&converted(layout, given));
    }
}

/// A valid narrow sheet laid out wide word by word, without a look at what it says:
/// before its samples every word of kind 2 begins a road, and none is there behind.
/// Above the places stand the kind and the two bits of the direction.
fn widened(words: &[u32]) -> Vec<u32> {
    let places = words::field(words[0], 27, 20);
    let behind = words[1..words.len() - 1].iter().map(|&word| match words::kind(word) {
        kinds::ROAD_PLACES => word & 0xFC00_0000 | (word & 0xFF00) << 4 | word & 0xFF,
        _ => word,
    });
    let front = [0xA000_0000 | places, words[0] & 0xF00F_FFFF];
    let mut wide: Vec<u32> = front.into_iter().chain(behind).collect();
    wide.push(0xF000_0000 | wide.len() as u32);
    wide
}

/// Generated sheets of both layouts, of up to 64 places: each is what the other is
/// taken to, and differs from it in front, roads and end alone.
#[test]
fn there_and_back() {
    let mut counts = [0; 2];
    for seed in 0..1500 {
        let words = valid::sheet(&mut Random::new(seed), 64);
        let layout = Layout::of(&words);
        let [narrow, wide] = BOTH.map(|layout| written(&words, layout));
        assert_eq!(widened(&narrow), wide);
        assert!(words == if layout.is_wide() { wide.clone() } else { narrow.clone() });
        assert_eq!(written(&narrow, Layout::Wide), wide);
        assert_eq!(written(&wide, Layout::Narrow), narrow);
        counts[layout.head_index()] += 1;
    }
    assert!(counts.iter().all(|&count| count > 300), "{counts:?}");
}

/// Judges both layouts of a sheet, which must say the same at every line, sample and
/// place, with the same rounds and as many yes verdicts.
fn assert_say_the_same(words: &[u32], judge: fn(&Case) -> reference::left::Left) {
    let front = Front::told(words);
    let plenty = 3 + 64 * (1 + front.places * front.samples);
    let sheets = BOTH.map(|layout| written(words, layout));
    let [one, other] = sheets.map(|words| judge(&Case::of(&words, plenty)));
    let expected = judge::Outcome { words: outcome(&one).words + 1, ..outcome(&one) };
    assert_eq!((one.number, outcome(&other)), (0, expected));
    let [one, other] = [one, other].map(|left| left.whole_answer().expect("an answer"));
    assert_eq!([one.layout, other.layout], BOTH);
    assert_eq!((one.places, one.lines), (other.places, other.lines));
}

/// By both evaluators where there are few places, else by the published algorithm.
#[test]
fn both_layouts_of_a_sheet_say_the_same() {
    for seed in 0..400 {
        assert_say_the_same(&valid::small_sheet(&mut Random::new(seed), 6), judged);
    }
    for seed in 0..200 {
        assert_say_the_same(&valid::sheet(&mut Random::new(seed), 64), judged_by::<Fast>);
    }
}
