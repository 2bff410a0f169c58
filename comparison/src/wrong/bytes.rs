//! Engines that do the right thing and then spoil what they leave.

use super::caught;
use super::traps::{difference_alone, found_alone};
use crate::{raising, steadiness, Engine, Filled, Implementation};
use reference::judge::Outcome;
use reference::words::{self, kinds};

/// What is changed in distances, answer and result.
type Spoil = fn(&mut [u8], &mut [u8], &mut [u8]);

/// Right, but for what it changes in what is left.
pub struct Spoilt(pub Spoil);

impl Engine for Spoilt {
    fn judge(&self, sheet: &[u8], left: Filled) -> u64 {
        let Filled { distances, answer, result } = left;
        let number = Implementation.judge(
            sheet,
            Filled { distances: &mut *distances, answer: &mut *answer, result: &mut *result },
        );
        (self.0)(distances, answer, result);
        number
    }

    fn lookup(&self, answer: &[u8], line: u64, sample: u64, place: u64) -> u64 {
        Implementation.lookup(answer, line, sample, place)
    }
}

#[track_caller]
fn assert_caught(spoil: Spoil) {
    assert!(caught(&Spoilt(spoil)).is_some());
}

/// Changes every word of an answer that is of this kind.
pub fn change_words(answer: &mut [u8], kind: u32, change: impl Fn(u32) -> u32) {
    for chunk in answer.chunks_exact_mut(4) {
        let word = chunk.iter().rev().fold(0, |word, &byte| word << 8 | u32::from(byte));
        if words::kind(word) == kind {
            chunk.copy_from_slice(&change(word).to_le_bytes());
        }
    }
}

pub fn change_outcome(result: &mut [u8], change: impl Fn(&mut Outcome)) {
    if let Some(mut outcome) = Outcome::from_bytes(result) {
        change(&mut outcome);
        result.copy_from_slice(&outcome.to_bytes());
    }
}

#[test]
fn margins_all_zero() {
    assert_caught(|_, answer, _| change_words(answer, kinds::YES, |_| kinds::YES << 28));
}

#[test]
fn a_no_at_zero_made_a_yes() {
    assert_caught(|_, answer, _| {
        change_words(answer, kinds::NO, |word| {
            let kind = if words::payload(word) == 0 { kinds::YES } else { kinds::NO };
            words::word(kind, words::payload(word))
        })
    });
}

/// Steadiness alone finds margins that are twice as large as they should be, and
/// tells the two sheets.
#[test]
fn margins_doubled_are_not_steady() {
    let engine = Spoilt(|_, answer, _| {
        change_words(answer, kinds::YES, |word| words::word(kinds::YES, word << 1 & 0x7FF_FFFF))
    });
    assert_eq!(found_alone(&engine, steadiness::check), Some(2));
}

/// Raised samples alone find a yes count that runs over, and tell the two sheets.
#[test]
fn a_yes_count_of_four_bits_falls() {
    let engine = Spoilt(|_, _, result| change_outcome(result, |outcome| outcome.yes &= 0xF));
    let difference = difference_alone(&engine, raising::check).expect("a difference");
    assert!(difference.what.starts_with("the yes count fell"));
    assert_eq!(difference.found_on.len(), 2);
}

#[test]
fn line_words_without_the_first_sample() {
    assert_caught(|_, answer, _| {
        change_words(answer, kinds::ANSWER_LINE, |word| word & !(0xFFF << 12))
    });
}

#[test]
fn line_words_with_the_end_for_the_length() {
    assert_caught(|_, answer, _| {
        change_words(answer, kinds::ANSWER_LINE, |word| word + words::field(word, 23, 12))
    });
}

#[test]
fn line_words_with_the_first_sample_a_bit_higher() {
    assert_caught(|_, answer, _| {
        change_words(answer, kinds::ANSWER_LINE, |word| {
            words::word(kinds::ANSWER_LINE, (word & 0xFFF_000) << 1 | word & 0xFFF)
        })
    });
}

#[test]
fn rounds_invented() {
    assert_caught(|_, _, result| change_outcome(result, |outcome| outcome.rounds += 1));
}

#[test]
fn yes_count_invented() {
    assert_caught(|_, _, result| change_outcome(result, |outcome| outcome.yes = 0));
}

#[test]
fn refusals_without_their_place() {
    assert_caught(|_, _, result| change_outcome(result, |outcome| outcome.place = 0));
}

#[test]
fn a_byte_behind_the_answer() {
    assert_caught(|_, answer, _| answer.last_mut().into_iter().for_each(|byte| *byte |= 1));
}

#[test]
fn a_byte_behind_the_distances() {
    assert_caught(|distances, _, _| distances.last_mut().into_iter().for_each(|byte| *byte |= 1));
}

/// An engine that refuses everything, correctly zeroed.
struct Refuses;

impl Engine for Refuses {
    fn judge(&self, _sheet: &[u8], left: Filled) -> u64 {
        Implementation.judge(&[], left)
    }

    fn lookup(&self, _answer: &[u8], _line: u64, _sample: u64, _place: u64) -> u64 {
        0
    }
}

#[test]
fn every_sheet_turned_back() {
    assert!(caught(&Refuses).is_some());
}
