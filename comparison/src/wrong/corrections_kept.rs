//! What corrected sheets find by themselves: nothing is compared with the
//! implementation.

use super::bytes::{change_outcome, change_words, Spoilt};
use super::corrections::{highest, mistaken, writing};
use super::traps::DRAWS;
use crate::correcting;
use crate::difference::Difference;
use crate::reached::Reached;
use crate::tools::Tools;
use crate::{Engine, Implementation};
use reference::correct::Correction;
use reference::generate::random::Random;
use reference::words::{self, kinds};

/// What is found on random sheets and lists, in an engine or in tools.
fn found(engine: &dyn Engine, tools: &dyn Tools) -> Option<Difference> {
    let (mut random, mut reached) = (Random::new(1), Reached::default());
    (0..DRAWS).find_map(|_| correcting::check(engine, tools, &mut random, &mut reached).err())
}

#[track_caller]
fn assert_found(found: Option<Difference>, what: &str) {
    let difference = found.expect("a difference");
    assert!(difference.what.starts_with(what), "{}", difference.what);
    assert!(!difference.found_on.is_empty());
}

#[test]
fn nothing_in_what_is_right() {
    assert!(found(&Implementation, &Implementation).is_none());
}

#[test]
fn the_last_in_the_list_counts() {
    let tools = writing(|asked| asked.written_by(|of_sample| of_sample[of_sample.len() - 1]));
    assert_found(found(&Implementation, &tools), "the order of a list matters");
}

#[test]
fn values_that_were_not_sent() {
    let tools = writing(|asked| {
        asked.written_by(|of_sample| {
            let counted = highest(of_sample);
            Correction { value: counted.value ^ 1, ..counted }
        })
    });
    assert_found(found(&Implementation, &tools), "word ");
}

/// What is written is a valid sheet, but not the one that was handed over.
#[test]
fn constants_changed() {
    let tools = writing(|asked| {
        let mut words = asked.written_by(highest);
        let constants = words.iter_mut().filter(|word| words::kind(**word) == kinds::CONSTANT);
        constants.for_each(|word| *word ^= 1);
        words
    });
    assert_found(found(&Implementation, &tools), "word ");
}

#[test]
fn a_word_left_out() {
    let tools = writing(|asked| {
        let mut words = asked.written_by(highest);
        words.pop();
        words
    });
    assert_found(found(&Implementation, &tools), "a valid sheet was refused with 14");
}

/// Where the list has been applied already: a value that is there becomes another that
/// was sent.
#[test]
fn another_revision_where_the_highest_is_there() {
    let tools = writing(|asked| {
        let written = asked.written_by(highest);
        if written == asked.words {
            asked.written_by(|of_sample| of_sample[0])
        } else {
            written
        }
    });
    assert_found(found(&Implementation, &tools), "the same list once more changes words");
}

#[test]
fn a_right_list_refused() {
    let tools = mistaken(|asked, told| {
        if told.outcome.number == 0 && !asked.list.is_empty() {
            told.refuse(20, 0);
        }
    });
    assert_found(found(&Implementation, &tools), "a valid sheet was refused with 20");
}

#[test]
fn margins_doubled() {
    let engine = Spoilt(|_, answer, _| {
        change_words(answer, kinds::YES, |word| words::word(kinds::YES, word << 1 & 0x7FF_FFFF));
    });
    assert_found(found(&engine, &Implementation), "not steady for samples");
}

#[test]
fn a_yes_count_of_four_bits() {
    let engine = Spoilt(|_, _, result| change_outcome(result, |outcome| outcome.yes &= 0xF));
    assert_found(found(&engine, &Implementation), "the yes count fell");
}
