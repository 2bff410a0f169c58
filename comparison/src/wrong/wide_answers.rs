//! Engines that are right on narrow sheets, and answer wide ones wrongly.

use super::caught;
use crate::{Engine, Filled, Implementation};
use reference::judge::Outcome;
use reference::layout::{Front, Layout, MOST_PLACES};
use reference::words::{self, kinds, BYTES_PER_WORD};

/// An engine that answers wide sheets otherwise than it should: what it does with
/// the words of the answer up to the end, and the result.
struct Answers(fn(&mut Vec<u32>, &mut Outcome));

impl Engine for Answers {
    fn judge(&self, sheet: &[u8], left: Filled) -> u64 {
        let Filled { distances, answer, result } = left;
        let lent = Filled { distances, answer: &mut *answer, result: &mut *result };
        let number = Implementation.judge(sheet, lent);
        if number != 0 || !Front::told_by_bytes(sheet).layout.is_wide() {
            return number;
        }
        let mut outcome = Outcome::from_bytes(result).unwrap_or_default();
        let mut words = words::first_words(answer, outcome.words as usize);
        (self.0)(&mut words, &mut outcome);
        let lent = answer.len() / BYTES_PER_WORD;
        words.resize(lent, 0);
        answer.copy_from_slice(&words::to_bytes(&words));
        result.copy_from_slice(&outcome.to_bytes());
        number
    }

    fn lookup(&self, answer: &[u8], line: u64, sample: u64, place: u64) -> u64 {
        Implementation.lookup(answer, line, sample, place)
    }
}

#[track_caller]
fn assert_answer_caught(answers: fn(&mut Vec<u32>, &mut Outcome)) {
    assert!(caught(&Answers(answers)).is_some());
}

/// Counts the end anew.
fn end_anew(words: &mut [u32]) {
    let before = words.len() as u32 - 1;
    words.last_mut().into_iter().for_each(|end| *end = words::word(kinds::END, before));
}

#[test]
fn an_answer_without_its_first_word() {
    assert_answer_caught(|words, outcome| {
        words.remove(0);
        end_anew(words);
        outcome.words -= 1;
    });
}

/// As the narrow sheet of as many places would be answered.
#[test]
fn few_places_answered_as_a_narrow_sheet() {
    assert_answer_caught(|words, outcome| {
        let front = Front::told(words);
        if front.places <= MOST_PLACES {
            let narrow = Front { layout: Layout::Narrow, ..front };
            words.splice(..2, narrow.words(kinds::ANSWER_HEAD));
            end_anew(words);
            outcome.words -= 1;
        }
    });
}

#[test]
fn an_end_that_does_not_count_the_first_word() {
    assert_answer_caught(|words, _| words.last_mut().into_iter().for_each(|end| *end -= 1));
}

#[test]
fn a_result_that_does_not_count_the_first_word() {
    assert_answer_caught(|_, outcome| outcome.words -= 1);
}

#[test]
fn places_told_in_the_head_of_the_answer_too() {
    assert_answer_caught(|words, _| words[1] |= words::field(words[0], 7, 0) << 20);
}
