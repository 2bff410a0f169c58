//! The generator gives lists of corrections of every kind: right ones, such that clash
//! in every way, and such with every fault, and what is lent is enough or not.

mod common;

use common::*;
use reference::correct::{self, first_fault, Correction};
use reference::generate::random::Random;
use reference::generate::tools::correction;
use reference::generate::{case, corrections, largest, valid};
use reference::layout::Front;
use reference::tool;
use reference::words::{self, BYTES_PER_WORD};

/// Every number but those of distances and of the converter.
#[test]
fn cases_reach_every_number() {
    let mut counts = [0; 21];
    for seed in 0..4000 {
        let sheet = case(seed, 80).sheet;
        let given = correction(&mut Random::new(!seed), &sheet);
        counts[corrected(&given).number as usize] += 1;
    }
    assert_eq!((counts[1], counts[18]), (0, 0));
    let asked = counts.iter().enumerate().filter(|(number, _)| !matches!(number, 1 | 18));
    asked.for_each(|(number, &count)| assert!(count > 10, "number {number}: {count}"));
    assert!([0, 15, 19, 20].iter().all(|&number| counts[number] > 200), "{counts:?}");
}

/// Whether a list is right for a valid sheet, clashes, or has a fault.
#[test]
fn lists_are_right_or_wrong_in_every_way() {
    let mut counts = [0; 8];
    for seed in 0..2000 {
        let mut random = Random::new(seed);
        let sheet = valid::small_sheet(&mut random, 6);
        let list = corrections::list(&mut random, &words::to_bytes(&sheet));
        let head = tool::valid(&sheet).expect("a valid sheet").head;
        let is_cut = !list.len().is_multiple_of(3);
        let at = match (first_fault(&list, &head), correct::corrected(&sheet, &list)) {
            (Some(place), _) if place == list.len() => 2 + list.len() % 3,
            (Some(place), _) => 5 + place % 3,
            (None, Ok(_)) => 0,
            (None, Err(refusal)) if refusal.number() == 20 && !is_cut => 1,
            (None, Err(refusal)) => panic!("{refusal:?}"),
        };
        counts[at] += 1;
    }
    assert_eq!(counts[2], 0);
    let asked = counts.iter().enumerate().filter(|(at, _)| *at != 2);
    asked.for_each(|(at, &count)| assert!(count > 20, "{at}: {count}"));
}

/// No word of theirs is faulty, and none clash. Some are empty, some outnumber the
/// sheet's words, and in some a sample is sent again, unlike or the same.
#[test]
fn right_lists() {
    let mut counts = [0; 4];
    for seed in 0..2000 {
        let mut random = Random::new(seed);
        let sheet = valid::small_sheet(&mut random, 6);
        let sent = corrections::right(&mut random, &Front::told(&sheet), sheet.len());
        assert!(correct::corrected(&sheet, &correct::list(&sent)).is_ok());
        let again = |is_so: fn(&Correction, &Correction) -> bool| {
            let mut pairs = (1..sent.len()).flat_map(|at| (0..at).map(move |before| (before, at)));
            pairs.any(|(before, at)| {
                sent[before].aim == sent[at].aim && is_so(&sent[before], &sent[at])
            })
        };
        let shown = [
            sent.is_empty(),
            sent.len() > sheet.len(),
            again(|one, other| one.revision != other.revision),
            again(|one, other| one == other),
        ];
        counts.iter_mut().zip(shown).for_each(|(count, shown)| *count += u32::from(shown));
    }
    assert!(counts.iter().all(|&count| count > 50), "{counts:?}");
}

/// Ten thousand corrections of a million words, of some samples more than one, and the
/// same with the last clashing with the first.
#[test]
fn lists_for_the_largest_sheet() {
    let mut random = Random::new(1);
    let sheet = largest::sheet(&mut random);
    let mut sent = corrections::all_over(&mut random, &Front::told(&sheet), 10_000);
    let written = correct::corrected(&sheet, &correct::list(&sent)).expect("a right list");
    let changed = sheet.iter().zip(&written).filter(|(before, after)| before != after).count();
    assert!((4_000..10_000).contains(&changed), "{changed}");
    corrections::clash_of_ends(&mut random, &mut sent);
    let refusal = correct::corrected(&sheet, &correct::list(&sent)).expect_err("a clash");
    assert_eq!((refusal.number(), refusal.place), (20, 3 * 9_999));
}

/// Each of the four lengths is wrong now and then, and alone as well; room is there for
/// no word, for fewer words than corrections, for one too few, just enough, one more, and
/// a thousand more.
#[test]
fn what_is_lent_is_enough_or_not() {
    let (sheet, mut counts) = (words::to_bytes(&EXAMPLE_A), [0; 10]);
    for seed in 0..4000 {
        let given = correction(&mut Random::new(seed), &sheet);
        let is_odd = |length: usize| !length.is_multiple_of(BYTES_PER_WORD);
        let [sheet, list] = [0, 1].map(|input| given.inputs[input].len());
        let wrong = [is_odd(sheet), is_odd(list), is_odd(given.output), given.result != 24];
        let room = given.output / BYTES_PER_WORD;
        let rooms = [
            room == 0,
            (1..list / 12).contains(&room),
            room == 18,
            room == 19,
            room == 20,
            room > 1000,
        ];
        let alone = |at: usize| wrong[at] && wrong.iter().filter(|&&wrong| wrong).count() == 1;
        let shown = rooms.into_iter().chain((0..4).map(alone));
        counts.iter_mut().zip(shown).for_each(|(count, shown)| *count += u32::from(shown));
        assert_eq!(corrected(&given).number == 16, wrong.contains(&true));
    }
    assert!(counts.iter().all(|&count| count > 10), "{counts:?}");
}
