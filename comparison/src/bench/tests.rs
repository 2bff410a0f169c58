//! The sheets are what the benchmark says of them. Nothing is timed here.

use super::sheets::{self, BothWays, Readings};
use super::{cities, corrections};
use reference::builder::SheetBuilder;
use reference::convert::laid_out;
use reference::correct::{self, Aim};
use reference::distance::{Distances, NO_DISTANCE};
use reference::fast::Fast;
use reference::judge::Outcome;
use reference::layout::{Layout, ENOUGH_DISTANCES};
use reference::sheet::{check, Sheet, LAST_CODE};
use std::collections::BTreeSet;

fn checked(words: &[u32]) -> Sheet {
    check(words, ENOUGH_DISTANCES).expect("a valid sheet")
}

/// The codes of some sheets, each once.
fn codes(sheets: &[&[u32]]) -> BTreeSet<u32> {
    let codes = |words: &&[u32]| -> Vec<u32> {
        checked(words).lines.iter().map(|line| line.operator.code()).collect()
    };
    sheets.iter().flat_map(codes).collect()
}

#[test]
fn the_grid_has_twelve_codes() {
    let words = sheets::full_grid();
    let sheet = checked(&words);
    assert_eq!(codes(&[&words]), (0..=6).chain(8..=11).chain([15]).collect());
    assert_eq!((sheet.head.places, sheet.head.signals, sheet.head.samples), (64, 2, 1024));
}

#[test]
fn every_code_is_timed() {
    let since = sheets::until_and_since((0, 4)).back;
    let back = sheets::windows_both_ways((0, 4)).back;
    let surround = sheets::surrounds((0, 3)).without_islands;
    let timed = codes(&[&sheets::full_grid(), &since, &back, &surround]);
    assert_eq!(timed, (0..=LAST_CODE).collect());
}

#[test]
fn a_grid_may_have_one_sample() {
    let sheet = checked(&sheets::grid(8, 1));
    assert!(sheet.lines.iter().all(|line| line.extent.length() == 1));
}

#[test]
fn the_path_takes_64_rounds() {
    let words = sheets::path();
    let case = reference::generate::Case::of(&words, 2 + 3 * (1 + 64 * 1024));
    let (mut distances, mut answer) = (vec![0; case.distances], vec![0; case.answer]);
    let mut result = vec![0; case.result];
    reference::judge::<Fast>(&case.sheet, &mut distances, &mut answer, &mut result);
    assert_eq!(Outcome::from_bytes(&result).map(|outcome| outcome.rounds), Some(64));
}

#[test]
fn the_full_graph_has_every_road() {
    assert_eq!(checked(&sheets::full_graph()).roads.len(), 2016);
}

/// Four places joined by four roads, an atom, and nothing else.
#[test]
fn the_tiny_sheet_is_tiny() {
    let sheet = checked(&cities::tiny());
    assert_eq!((sheet.head.places, sheet.head.signals, sheet.head.samples), (4, 1, 1));
    assert_eq!((sheet.roads.len(), sheet.lines.len()), (4, 1));
    assert_eq!(codes(&[&cities::tiny()]), BTreeSet::from([1]));
}

#[test]
fn cities_are_wide_and_have_1024_places() {
    for samples in [1, 100] {
        let sheet = checked(&cities::surround(samples, (2, 12)));
        assert_eq!((sheet.head.layout, sheet.head.places), (Layout::Wide, 1024));
        assert_eq!((sheet.roads.len(), sheet.head.samples), (1984, samples as usize));
        assert!(sheet.roads.iter().all(|road| road.weight == 1));
    }
    let sheet = checked(&cities::full_graph());
    assert_eq!((sheet.head.layout, sheet.head.places), (Layout::Wide, 1024));
    assert_eq!((sheet.roads.len(), sheet.lines.len()), (523_776, 1));
}

/// Every street runs one way, and from each place one comes to each.
#[test]
fn streets_run_one_way() {
    let sheet = checked(&cities::surround_on_streets(100, (2, 12)));
    assert_eq!((sheet.roads.len(), sheet.head.samples), (1984, 100));
    assert!(sheet.roads.iter().all(|road| road.direction.is_one_way()));
    let distances = Distances::new(1024, &sheet.roads);
    assert!(distances.entries().all(|entry| entry != NO_DISTANCE));
}

/// Both layouts of one sheet: each is what the other is taken to.
#[test]
fn a_million_words_in_both_layouts() {
    let [narrow, wide] = Layout::BOTH.map(sheets::million);
    assert!((1_000_000..1_100_000).contains(&narrow.len()));
    assert!(laid_out(&narrow, Layout::Wide) == Ok(wide.clone()));
    assert!(laid_out(&wide, Layout::Narrow) == Ok(narrow));
    let sheet = checked(&wide);
    assert_eq!((sheet.head.places, sheet.head.signals, sheet.head.samples), (64, 16, 1024));
    assert_eq!((sheet.roads.len(), sheet.lines.len()), (2016, 1));
}

/// Right lists of as many corrections as they say: how many samples they have, and how
/// many samples and revisions.
#[test]
fn lists_of_corrections() {
    let words = sheets::million(Layout::Narrow);
    let lists = corrections::timed_lists(&words);
    let counts = lists.each_ref().map(|(_, list)| {
        assert!(correct::corrected(&words, &correct::list(list)).is_ok());
        let samples: BTreeSet<Aim> = list.iter().map(|one| one.aim).collect();
        let revisions: BTreeSet<(Aim, u32)> =
            list.iter().map(|one| (one.aim, one.revision)).collect();
        (list.len(), samples.len(), revisions.len())
    });
    let [none, unlike, drawn, one, same, more, every] = counts;
    assert_eq!((none, unlike), ((0, 0, 0), (10_000, 10_000, 10_000)));
    assert_eq!((one, same), ((10_000, 1, 255), (10_000, 1, 1)));
    assert!(drawn.0 == 10_000 && (9_900..10_000).contains(&drawn.1));
    assert!(more.0 == 300_000 && (250_000..290_000).contains(&more.1) && more.2 < 300_000);
    assert_eq!(every, (1_048_576, 1_048_576, 1_048_576));
    assert!([1, 6].iter().all(|&at| lists[at].1.iter().all(|one| one.revision == 1)));
}

#[test]
fn lines_are_as_many_as_asked_for() {
    assert_eq!(checked(&sheets::grid_of_lines(64)).lines.len(), 64);
}

/// The words without the codes of lines.
fn without_codes(words: &[u32]) -> Vec<u32> {
    let line = |&word: &u32| word >> 28 == 5;
    words.iter().map(|word| if line(word) { word & !(0xFF << 20) } else { *word }).collect()
}

/// Both sheets have the same words but for the codes of lines, and lines of the
/// same lengths.
fn assert_alike(sheets: &BothWays, codes: &[(u32, u32)]) {
    assert_eq!(without_codes(&sheets.ahead), without_codes(&sheets.back));
    let (ahead, back) = (checked(&sheets.ahead).lines, checked(&sheets.back).lines);
    let pairs: Vec<_> = ahead.iter().zip(&back).skip(2).collect();
    let found = pairs.iter().map(|(a, b)| (a.operator.code(), b.operator.code()));
    assert_eq!(found.collect::<Vec<_>>(), codes);
    assert!(pairs.iter().all(|(a, b)| a.extent.length() == b.extent.length()));
    assert!(pairs.iter().all(|(a, b)| a.extent.first == 0 && b.extent.end == 1024));
}

#[test]
fn windows_are_the_same_both_ways() {
    for bounds in [(0, 4), (16, 16), (256, 512)] {
        assert_alike(&sheets::until_and_since(bounds), &[(5, 12)]);
        assert_alike(&sheets::windows_both_ways(bounds), &[(9, 13), (10, 14)]);
    }
}

#[test]
fn short_windows_have_sixty_lines() {
    let sheets = sheets::short_windows();
    assert_alike(&sheets, &[(5, 12); 60]);
    let uppers = checked(&sheets.ahead).lines.into_iter().filter_map(|line| line.operator.bounds());
    assert_eq!(uppers.map(|bounds| bounds.upper).collect::<BTreeSet<_>>(), (1..=4).collect());
}

/// Both sheets have the same words but for the codes of so many surrounds.
fn assert_readings(sheets: &Readings, surrounds: usize) {
    assert_eq!(without_codes(&sheets.with_islands), without_codes(&sheets.without_islands));
    let (with, without) = (checked(&sheets.with_islands), checked(&sheets.without_islands));
    assert_eq!((with.head.places, with.head.samples), (64, 64));
    let pairs = with.lines.iter().zip(&without.lines);
    let pairs = pairs.map(|(with, without)| (with.operator.code(), without.operator.code()));
    let apart: Vec<(u32, u32)> = pairs.filter(|(with, without)| with != without).collect();
    assert_eq!(apart, vec![(15, 7); surrounds]);
}

#[test]
fn readings_differ_in_surrounds_alone() {
    assert_readings(&sheets::surrounds((0, 3)), 1);
    assert_readings(&sheets::grids_of_surrounds(), 3);
}

/// Three places in a row with roads of 1: up to 1 the middle has two runs, an end
/// has one for the middle and one for the other end. Up to 2 all have two.
#[test]
fn runs_are_counted() {
    let row = SheetBuilder::new(3, 1, 1).road(0, 1, 1).road(1, 2, 1).samples(&[0; 3]).truth();
    let runs = |upper: u32| sheets::runs_of_centre(&row.clone().bounded(7, 0, 0, (0, upper)).end());
    assert_eq!([runs(0), runs(1), runs(2)], [1.0, 2.0, 2.0]);
}
