//! What sheets taken there and back find by themselves: nothing is compared with the
//! implementation.

use super::bytes::Spoilt;
use super::converters::mistaken;
use super::rereads::reread_roads;
use super::traps::DRAWS;
use crate::converting::there_and_back;
use crate::difference::Difference;
use crate::tools::Tools;
use crate::{Engine, Implementation};
use reference::generate::random::Random;
use reference::generate::valid;
use reference::layout::Layout;
use reference::road::{Direction, BOTH_MARKS};
use reference::words::{self, kinds};

/// What is found on random sheets, in an engine or in tools.
fn found(engine: &dyn Engine, tools: &dyn Tools) -> Option<Difference> {
    let mut random = Random::new(1);
    (0..DRAWS).find_map(|_| {
        let words = valid::sheet_or_city(&mut random, 16);
        there_and_back(engine, tools, &mut random, &words).err()
    })
}

#[track_caller]
fn assert_found(found: Option<Difference>, what: &str, sheets: usize) {
    let difference = found.expect("a difference");
    assert!(difference.what.starts_with(what), "{}", difference.what);
    assert_eq!(difference.found_on.len(), sheets);
}

#[test]
fn nothing_in_what_is_right() {
    assert!(found(&Implementation, &Implementation).is_none());
}

#[test]
fn an_end_count_as_it_was() {
    let tools = mistaken(|asked, told| {
        if asked.changes() {
            told.words
                .last_mut()
                .into_iter()
                .for_each(|end| *end = asked.words[asked.words.len() - 1]);
        }
    });
    assert_found(found(&Implementation, &tools), "a valid sheet was refused with 14", 1);
}

/// One way alone: the sheet is a valid one, but not the one that was handed over.
#[test]
fn a_sample_lost_on_the_way_back() {
    let tools = mistaken(|asked, told| {
        let sample = told.words.iter_mut().find(|word| words::kind(**word) == kinds::SAMPLE);
        if !asked.to.is_wide() {
            sample.into_iter().for_each(|word| *word = words::word(kinds::SAMPLE, 0));
        }
    });
    assert_found(found(&Implementation, &tools), "there and back the words are others", 2);
}

/// Weights that are 1 all the way have other distances, and come back as 1.
#[test]
fn weights_lost_both_ways() {
    let tools = mistaken(|asked, told| {
        let weights = told.words.iter_mut().filter(|word| words::kind(**word) == 3);
        if asked.changes() {
            weights.for_each(|word| *word = words::word(3, 1));
        }
    });
    assert_found(found(&Implementation, &tools), "there and back the words are others", 2);
}

/// Each time they are exchanged, so that the words come back: what is said does not.
#[test]
fn directions_exchanged_both_ways() {
    let tools = mistaken(|asked, told| {
        if asked.changes() {
            reread_roads(&mut told.words, |word| match Direction::told(word) {
                Some(direction) => word & !BOTH_MARKS | direction.turned().mark(),
                None => word,
            });
        }
    });
    assert_found(found(&Implementation, &tools), "unlike rounds and yes counts", 2);
}

/// An engine that says something else to wide sheets.
#[test]
fn a_margin_more_for_wide_sheets() {
    let engine = Spoilt(|_, answer, _| {
        let words = words::from_bytes(answer).unwrap_or_default();
        if Layout::of(&words).is_wide() {
            super::bytes::change_words(answer, kinds::YES, |word| word & !1);
        }
    });
    let what = found(&engine, &Implementation).map(|difference| difference.what);
    assert!(what.is_some_and(|what| what.ends_with("is not the same in both layouts")));
}

#[test]
fn a_round_more_for_wide_sheets() {
    let engine = Spoilt(|_, answer, result| {
        if answer.get(3).is_some_and(|byte| byte >> 4 == 10) {
            super::bytes::change_outcome(result, |outcome| outcome.rounds += 1);
        }
    });
    assert_found(found(&engine, &Implementation), "unlike rounds and yes counts", 2);
}
