//! The generator makes wide sheets and wide answers, whole and damaged.

mod common;

use common::*;
use reference::answer::Answer;
use reference::fast::Fast;
use reference::generate::random::Random;
use reference::generate::{aim, answers, case, rounds, valid, Case};
use reference::layout::{Front, Layout, ENOUGH_DISTANCES};
use reference::sheet::check;
use reference::words;
use reference::worked::WIDE_A;

/// Places enough for cities.
const CITY: usize = 300;

/// What is wanted is so of more than so many.
fn assert_more_than(least: u32, counts: &[u32]) {
    assert!(counts.iter().all(|&count| count > least), "{counts:?}");
}

/// Both layouts of few places, and cities up to beyond 8 bits, none too large.
#[test]
fn valid_sheets_are_narrow_and_wide() {
    let mut counts = [0; 4];
    for seed in 0..3000 {
        let words = valid::sheet(&mut Random::new(seed), CITY);
        let head = check(&words, ENOUGH_DISTANCES).expect("a valid sheet").head;
        let is_wide = head.layout.is_wide();
        assert!(head.places <= if is_wide { CITY } else { 64 });
        counts[usize::from(is_wide)] += 1;
        counts[2] += u32::from(head.places == 65);
        counts[3] += u32::from(head.places > 256);
    }
    assert_more_than(0, &counts);
    assert_more_than(600, &counts[..2]);
}

#[test]
fn aims_at_cities_hit() {
    for number in 1..=17 {
        for seed in 0..60 {
            let case = aim::aimed(&mut Random::new(seed), number, CITY);
            assert_eq!(judged_by::<Fast>(&case).number, number, "seed {seed}");
        }
    }
}

/// The number and the place of a case that is aimed, and what its sheet's front
/// tells.
fn aimed(number: u64, seed: u64) -> (u64, Front, Vec<u32>) {
    let case = aim::aimed(&mut Random::new(seed), number, 8);
    let place = outcome(&judged_by::<Fast>(&case)).place;
    let words = words::from_bytes(&case.sheet).expect("whole words");
    (place, Front::told(&words), words)
}

/// Every cause of 17: the count 0 or too large, a spare bit, and a head that is
/// missing, of another kind or with places.
#[test]
fn wide_heads_are_damaged_in_every_way() {
    let mut counts = [0; 6];
    for seed in 0..400 {
        let (place, front, words) = aimed(17, seed);
        let spare = words::field(words[0], 27, 16) != 0;
        let at_first = if front.places == 0 { 0 } else { 1 + usize::from(spare) };
        let at_second = match words.get(1) {
            None => 3,
            Some(&word) if words::kind(word) != 1 => 4,
            Some(_) => 5,
        };
        counts[if place == 0 { at_first } else { at_second }] += 1;
    }
    assert_more_than(10, &counts);
}

/// 3 is told at the head of either layout, 1 also of wide sheets.
#[test]
fn layouts_of_refused_sheets() {
    let mut counts = [0; 4];
    for seed in 0..200 {
        let (place, front, _) = aimed(3, seed);
        assert_eq!(place, front.layout.head_index() as u64);
        counts[usize::from(front.layout.is_wide())] += 1;
        let (place, front, _) = aimed(1, seed);
        assert_eq!(place, 0);
        counts[2 + usize::from(front.layout.is_wide())] += 1;
    }
    assert_more_than(20, &counts);
}

/// Distances are lent exactly, longer, and to few places as to a narrow sheet.
#[test]
fn distances_lent_to_wide_sheets() {
    let mut counts = [0; 3];
    for seed in 0..2000 {
        let case = case(seed, 8);
        let words = words::from_bytes(&case.sheet).unwrap_or_default();
        let front = Front::told(&words);
        if front.layout.is_wide() && check(&words, ENOUGH_DISTANCES).is_ok() {
            let (needed, lent) = (front.distances_needed() * 8, case.distances);
            counts[0] += u32::from(lent == needed);
            counts[1] += u32::from(lent > needed);
            counts[2] += u32::from(lent == 4096 * 8);
        }
    }
    assert_more_than(20, &counts);
}

/// Some paths are longer than 64 places, and their rounds as many.
#[test]
fn cities_take_many_rounds() {
    let mut cities = 0;
    for seed in 0..100 {
        let words = rounds::wandering_margins(&mut Random::new(seed), 100);
        let places = Front::told(&words).places as u64;
        if places > 64 {
            let left = judged_by::<Fast>(&Case::of(&words, 3 + 4 * 101));
            assert_eq!(outcome(&left).rounds, places);
            cities += 1;
        }
    }
    assert_more_than(2, &[cities]);
}

/// Whole ones of both layouts and of more places than 8 bits hold.
#[test]
fn invented_answers_are_narrow_and_wide() {
    let mut counts = [0; 3];
    for seed in 0..300 {
        let answer = Answer::read(&answers::invented(&mut Random::new(seed))).expect("whole");
        counts[usize::from(answer.layout.is_wide())] += 1;
        counts[2] += u32::from(answer.places > 256);
    }
    assert_more_than(5, &counts);
}

/// Only the places are at fault: with others the front would be right.
#[test]
fn answers_beyond_the_limits_are_no_answers() {
    let mut counts = [0; 4];
    for seed in 0..100 {
        let words = answers::beyond_limits(&mut Random::new(seed));
        let front = Front::told(&words);
        assert!(front.is_laid_out(&words, 13) && Answer::read(&words).is_none());
        assert_eq!(words.last(), Some(&(15 << 28 | (words.len() as u32 - 1))));
        let is_wide = usize::from(front.layout.is_wide());
        counts[2 * is_wide + usize::from(front.places > 0)] += 1;
    }
    assert_more_than(10, &counts);
}

/// Of wide answers the first word is struck alone, and the head is.
#[test]
fn wide_answers_are_damaged_in_their_fronts() {
    let whole = answer_words(&judged_words(&WIDE_A));
    let mut counts = [0; 4];
    for seed in 0..2000 {
        let damaged = answers::damaged(&mut Random::new(seed), &words::to_bytes(&whole));
        let words = words::from_bytes(&damaged).unwrap_or_default();
        let is_same = |from: usize| words.get(from..) == whole.get(from..);
        let is_wide = Layout::of(&words).is_wide();
        counts[0] += u32::from(is_same(1) && is_wide && words[0] != whole[0]);
        counts[1] += u32::from(is_same(1) && !is_wide);
        counts[2] += u32::from(is_same(2) && words[..1] == whole[..1] && words[1] != whole[1]);
        counts[3] += u32::from(words == whole[1..]);
    }
    assert_more_than(10, &counts);
}
