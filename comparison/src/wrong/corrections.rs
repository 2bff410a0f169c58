//! Correctors that write what they should not: another revision's value, another value,
//! or another word.

use super::tools::{self, Call, Told};
use super::SEEDS_OF_RIGHT;
use crate::tools::{Tool, Tools};
use reference::correct::{self, Aim, Correction};
use reference::sheet::Sheet;
use reference::tool;
use reference::words::BIT_27;
use std::collections::BTreeMap;

/// What a corrector is given.
pub struct Asked {
    pub words: Vec<u32>,
    pub list: Vec<u32>,
    pub room: usize,
}

impl Asked {
    pub fn sheet(&self) -> Sheet {
        tool::valid(&self.words).expect("a valid sheet")
    }

    pub fn corrections(&self) -> Vec<Correction> {
        correct::told(&self.list).collect()
    }

    /// Whether there is less room than a valid sheet of these words would need.
    pub fn is_short(&self) -> bool {
        !self.words.is_empty() && self.room < self.words.len()
    }

    /// The words of a valid sheet with one of each sample's corrections written, the one
    /// that a rule picks of those that there are, in the list's order.
    pub fn written_by(&self, rule: impl Fn(&[Correction]) -> Correction) -> Vec<u32> {
        let mut by_sample: BTreeMap<Aim, Vec<Correction>> = BTreeMap::new();
        for correction in self.corrections() {
            by_sample.entry(correction.aim).or_default().push(correction);
        }
        let chosen: Vec<Correction> = by_sample.values().map(|of_one| rule(of_one)).collect();
        self.written(&chosen, |sheet, aim| aim.word_index(sheet))
    }

    /// The words of a valid sheet with these values written, each where it is aimed by
    /// some reckoning, if there is such a word.
    pub fn written(&self, sent: &[Correction], aimed: impl Fn(&Sheet, Aim) -> usize) -> Vec<u32> {
        let (sheet, mut words) = (self.sheet(), self.words.clone());
        for correction in sent {
            let word = words.get_mut(aimed(&sheet, correction.aim));
            word.into_iter().for_each(|word| *word = correction.words()[2]);
        }
        words
    }
}

/// The corrector of a mistake.
pub fn mistaken(mistake: impl Fn(&Asked, &mut Told)) -> impl Tools {
    tools::mistaken(move |call, told| {
        let Call { tool, inputs, room } = call;
        if tool == Tool::Correct {
            let [words, list] = inputs.try_into().expect("a sheet and a list");
            mistake(&Asked { words, list, room }, told);
        }
    })
}

/// Demands that the corrector of a mistake is caught.
#[track_caller]
pub fn assert_caught(mistake: impl Fn(&Asked, &mut Told)) {
    tools::assert_caught(&mistaken(mistake));
}

/// Caught for the place at which a number is told.
#[track_caller]
pub fn assert_caught_placing(number: u64, other: impl Fn(&Asked, usize) -> usize) {
    assert_caught(|asked, told| {
        if told.outcome.number == number {
            told.refuse(number, other(asked, told.outcome.place as usize));
        }
    });
}

/// The corrector that writes other words.
pub fn writing(write: impl Fn(&Asked) -> Vec<u32>) -> impl Tools {
    mistaken(move |asked, told| {
        if told.outcome.number == 0 {
            told.write(write(asked));
        }
    })
}

/// Caught where other words are written.
#[track_caller]
pub fn assert_caught_where_written(write: impl Fn(&Asked) -> Vec<u32>) {
    tools::assert_caught(&writing(write));
}

/// Caught for the correction that counts of a sample's.
#[track_caller]
fn assert_caught_choosing(rule: impl Fn(&[Correction]) -> Correction) {
    assert_caught_where_written(|asked| asked.written_by(&rule));
}

/// The correction of a sample that counts.
pub fn highest(of_sample: &[Correction]) -> Correction {
    by_key(of_sample, |correction| correction.revision)
}

/// The correction that has the greatest of something, the last of those that are equal.
fn by_key<K: Ord>(of_sample: &[Correction], key: impl Fn(&Correction) -> K) -> Correction {
    *of_sample.iter().max_by_key(|correction| key(correction)).expect("a correction")
}

#[test]
fn without_a_fault_nothing_is_found() {
    let right = writing(|asked| asked.written_by(highest));
    assert_eq!(tools::caught_within(&right, SEEDS_OF_RIGHT), None);
}

#[test]
fn the_last_in_the_list_counts() {
    assert_caught_choosing(|of_sample| of_sample[of_sample.len() - 1]);
}

#[test]
fn the_first_in_the_list_counts() {
    assert_caught_choosing(|of_sample| of_sample[0]);
}

#[test]
fn the_lowest_revision_counts() {
    assert_caught_choosing(|of_sample| by_key(of_sample, |one| u32::MAX - one.revision));
}

#[test]
fn revisions_with_a_sign() {
    assert_caught_choosing(|of_sample| by_key(of_sample, |one| one.revision as u8 as i8));
}

#[test]
fn revisions_of_fewer_bits() {
    for bits in 1..8 {
        assert_caught_choosing(|of_sample| by_key(of_sample, |one| one.revision % (1 << bits)));
    }
}

#[test]
fn the_greatest_value_counts() {
    assert_caught_choosing(|of_sample| by_key(of_sample, |one| one.value));
}

/// The first word as a whole, of which the revision is the top, is as good for one sample;
/// by the value's word it would not be.
#[test]
fn the_greatest_word_of_a_value_counts() {
    assert_caught_choosing(|of_sample| by_key(of_sample, |one| one.words()[2]));
}

/// A revision counts if none of the list is higher, of whatever sample.
#[test]
fn the_highest_revision_of_the_list_alone_counts() {
    assert_caught_where_written(|asked| {
        let mut sent = asked.corrections();
        let highest = sent.iter().map(|correction| correction.revision).max();
        sent.retain(|correction| Some(correction.revision) == highest);
        asked.written(&sent, |sheet, aim| aim.word_index(sheet))
    });
}

#[test]
fn nothing_is_corrected() {
    assert_caught_where_written(|asked| asked.words.clone());
}

#[test]
fn the_last_sample_of_the_list_is_left_out() {
    assert_caught_where_written(|asked| {
        let sent = asked.corrections();
        let all_but_one = sent.len().saturating_sub(1);
        let list = correct::list(&sent[..all_but_one]);
        correct::corrected(&asked.words, &list).expect("what is right without it")
    });
}

#[test]
fn values_without_their_sign() {
    assert_caught_choosing(|of_sample| {
        let counted = highest(of_sample);
        Correction { value: counted.value & 0x3FF_FFFF, ..counted }
    });
}

/// As if what is sent were by how much a count was wrong.
#[test]
fn values_added_to_the_samples() {
    assert_caught_where_written(|asked| {
        let sheet = asked.sheet();
        asked.written_by(|of_sample| {
            let counted = highest(of_sample);
            let sample = sheet.readings[counted.aim.index(&sheet.head)];
            Correction { value: counted.value.wrapping_add(sample), ..counted }
        })
    });
}

#[test]
fn values_that_are_no_samples() {
    assert_caught_where_written(|asked| {
        let mut words = asked.written_by(highest);
        let changed = words.iter_mut().zip(&asked.words).filter(|(word, before)| word != before);
        changed.for_each(|(word, _)| *word |= BIT_27);
        words
    });
}
