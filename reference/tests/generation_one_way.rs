//! The generator makes roads that run one way, in sheets that are right and in
//! sheets that are refused for them.

mod common;

use common::*;
use reference::fast::Fast;
use reference::generate::random::Random;
use reference::generate::{aim, largest, rounds, valid, Case};
use reference::layout::{Layout, Pair, ENOUGH_DISTANCES};
use reference::road::{Direction, BOTH_MARKS};
use reference::sheet::{check, Sheet};
use reference::words;

fn assert_more_than(least: u32, counts: &[u32]) {
    assert!(counts.iter().all(|&count| count > least), "{counts:?}");
}

fn sheet_of(words: &[u32]) -> Sheet {
    check(words, ENOUGH_DISTANCES).expect("a valid sheet")
}

/// How many roads of a sheet run one way only, of how many.
fn one_way(sheet: &Sheet) -> (usize, usize) {
    let is_one_way = |direction: Direction| direction.is_one_way();
    let roads = sheet.roads.iter().filter(|road| is_one_way(road.direction));
    (roads.count(), sheet.roads.len())
}

/// Whether places form one circle of roads that all run the same way round: from
/// each place leads one road, and from the first one comes to all.
fn is_circle(sheet: &Sheet) -> bool {
    let neighbours = sheet.neighbours();
    if !neighbours.iter().all(|around| around.len() == 1) {
        return false;
    }
    let ways = std::iter::successors(Some(0), |&place: &usize| Some(neighbours[place][0]));
    let visited: std::collections::BTreeSet<usize> = ways.take(neighbours.len()).collect();
    visited.len() == neighbours.len() && neighbours.len() > 2
}

/// No road one way, some, all, and all in a circle, in either layout.
#[test]
fn valid_sheets_have_roads_of_every_direction() {
    for layout in Layout::BOTH {
        let mut counts = [0; 4];
        for seed in 0..3000 {
            let sheet = sheet_of(&valid::sheet(&mut Random::new(seed), 64));
            if sheet.head.layout == layout && !sheet.roads.is_empty() {
                let (one_way, roads) = one_way(&sheet);
                counts[0] += u32::from(one_way == 0);
                counts[1] += u32::from((1..roads).contains(&one_way));
                counts[2] += u32::from(one_way == roads && roads > 1);
                counts[3] += u32::from(is_circle(&sheet));
            }
        }
        assert_more_than(10, &counts);
        assert_more_than(100, &counts[..3]);
        assert!(counts[0] > counts[1] && counts[0] > counts[2], "{counts:?}");
    }
}

/// A million words, and 1,024 places.
#[test]
fn the_largest_sheets_have_one_way_roads() {
    let is_one_way = |words: &[u32]| one_way(&sheet_of(words)).0 > 0;
    assert!((0..8).any(|seed| is_one_way(&largest::city(&mut Random::new(seed)))));
    assert!((0..8).any(|seed| is_one_way(&largest::sheet(&mut Random::new(seed)))));
}

/// The sheet of a case that is aimed at a number, and the place that is told.
fn struck(number: u64, seed: u64) -> (Vec<u32>, usize) {
    let case = aim::aimed(&mut Random::new(seed), number, 8);
    let place = outcome(&judged_by::<Fast>(&case)).place as usize;
    (words::from_bytes(&case.sheet).expect("whole words"), place)
}

/// Both bits alone and beside spare ones, and spare ones beside one bit and none.
#[test]
fn aims_at_the_bits_of_a_road() {
    for layout in Layout::BOTH {
        let mut counts = [0; 4];
        for (words, place) in (0..800).map(|seed| struck(4, seed)) {
            let Pair { direction, spare, .. } = layout.pair(words[place]);
            let shown = match direction {
                None => usize::from(spare > 0),
                Some(direction) => 2 + usize::from(direction.is_one_way()),
            };
            counts[shown] += u32::from(Layout::of(&words) == layout);
        }
        assert_more_than(10, &counts);
    }
}

/// A pair once more as it was and with another direction, and a lower pair in a
/// greater word.
#[test]
fn aims_at_the_order_of_roads() {
    for layout in Layout::BOTH {
        let mut counts = [0; 3];
        for (words, place) in (0..800).map(|seed| struck(6, seed)) {
            let (word, before) = (words[place], words[place - 2]);
            let [this, last] = [word, before].map(|word| word & !BOTH_MARKS);
            if Layout::of(&words) == layout {
                counts[0] += u32::from(word == before);
                counts[1] += u32::from(this == last && word != before);
                counts[2] += u32::from(this < last && word > before);
            }
        }
        assert_more_than(10, &counts);
    }
}

/// Roads of every direction are at fault in their pair, or a word later in their
/// weight.
#[test]
fn one_way_roads_have_other_faults() {
    for (number, behind) in [(5, 0), (7, 1)] {
        let mut counts = [0; 3];
        for (words, place) in (0..600).map(|seed| struck(number, seed)) {
            let direction = Direction::told(words[place - behind]);
            let at = Direction::ALL.iter().position(|&one| Some(one) == direction);
            counts[at.expect("a direction")] += 1;
        }
        assert_more_than(10, &counts);
    }
}

/// Paths that lead to one end alone still take as many rounds as places.
#[test]
fn one_way_paths_take_many_rounds() {
    let mut counts = [0; 2];
    for seed in 0..200 {
        let words = rounds::wandering_margins(&mut Random::new(seed), 64);
        let (one_way, roads) = one_way(&sheet_of(&words));
        let left = judged_by::<Fast>(&Case::of(&words, 3 + 4 * (1 + 33 * 64)));
        if one_way > 0 {
            assert_eq!(outcome(&left).rounds, roads as u64 + 1, "seed {seed}");
            counts[usize::from(one_way == roads)] += 1;
        }
    }
    assert_more_than(10, &counts);
}
