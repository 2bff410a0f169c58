//! Engines that judge as they should, but look up wrongly.

use super::{caught, caught_within, SEEDS_OF_RIGHT};
use crate::{Engine, Filled, Implementation};
use reference::layout::{Front, Layout};
use reference::words::{self, kinds};

/// Looks a line, a sample and a place up in the words of an answer.
type LookUp = fn(&[u32], u64, u64, u64) -> u64;

struct LooksUp(LookUp);

impl Engine for LooksUp {
    fn judge(&self, sheet: &[u8], left: Filled) -> u64 {
        Implementation.judge(sheet, left)
    }

    fn lookup(&self, answer: &[u8], line: u64, sample: u64, place: u64) -> u64 {
        match words::from_bytes(answer) {
            Some(words) => (self.0)(&words, line, sample, place),
            None => 0,
        }
    }
}

#[track_caller]
fn assert_caught(look_up: LookUp) {
    assert!(caught(&LooksUp(look_up)).is_some());
}

/// The right lookup, in other words.
fn in_words(words: &[u32], line: u64, sample: u64, place: u64) -> u64 {
    Implementation.lookup(&words::to_bytes(words), line, sample, place)
}

/// The answer with every line word changed, given T as well.
fn with_lines(words: &[u32], change: fn(u32, u32) -> u32) -> Vec<u32> {
    let samples = Front::told(words).samples as u32;
    let changed = |&word: &u32| match words::kind(word) {
        kinds::ANSWER_LINE => change(word, samples),
        _ => word,
    };
    words.iter().map(changed).collect()
}

/// A line's word, by the kind 14 words of the answer.
fn line_word(words: &[u32], line: u64) -> u32 {
    let lines = words.iter().filter(|&&word| words::kind(word) == kinds::ANSWER_LINE);
    lines.copied().nth(line as usize).unwrap_or(0)
}

#[test]
fn without_a_fault_nothing_is_found() {
    assert_eq!(caught_within(&LooksUp(in_words), SEEDS_OF_RIGHT), None);
}

#[test]
fn a_lookup_that_does_not_look_behind_the_end() {
    assert_caught(|words, line, sample, place| {
        let end = words.iter().rposition(|&word| words::kind(word) == kinds::END);
        let known = end.map_or(words, |end| &words[..=end]);
        in_words(known, line, sample, place)
    });
}

#[test]
fn samples_counted_from_the_first_of_the_line() {
    assert_caught(|words, line, sample, place| {
        let first = words::field(line_word(words, line), 23, 12);
        in_words(words, line, sample.saturating_add(first.into()), place)
    });
}

/// The first verdicts are given out for samples that the line does not have.
#[test]
fn samples_before_the_first_taken_for_it() {
    assert_caught(|words, line, sample, place| {
        let first = words::field(line_word(words, line), 23, 12);
        in_words(words, line, sample.max(first.into()), place)
    });
}

#[test]
fn bits_above_the_first_sample_passed_over() {
    assert_caught(|words, line, sample, place| {
        let cleared = with_lines(words, |word, _| word & !(0xF << 24));
        in_words(&cleared, line, sample, place)
    });
}

/// A line that goes past T is taken for one that ends there.
#[test]
fn lines_past_the_recording_passed_over() {
    assert_caught(|words, line, sample, place| {
        let kept = with_lines(words, |word, samples| {
            let (first, length) = (words::field(word, 23, 12), words::field(word, 11, 0));
            let most = samples.saturating_sub(length);
            words::word(kinds::ANSWER_LINE, word & 0xF00_0FFF | first.min(most) << 12)
        });
        in_words(&kept, line, sample, place)
    });
}

/// A sample past the last that a line may have is one too many.
#[test]
fn lines_a_sample_past_the_recording_taken() {
    assert_caught(|words, line, sample, place| {
        let mut longer = words.to_vec();
        let head = longer.get_mut(Layout::of(words).head_index());
        if let Some(head) = head.filter(|head| words::field(**head, 11, 0) < 1024) {
            *head += 1;
        }
        in_words(&longer, line, sample, place)
    });
}

/// The whole payload is taken for the length, so late lines are too long.
#[test]
fn first_samples_taken_for_faults() {
    assert_caught(|words, line, sample, place| {
        let late = |&word: &u32| words::kind(word) == kinds::ANSWER_LINE && word & 0xFFF_F000 > 0;
        if words.iter().any(late) {
            return 0;
        }
        in_words(words, line, sample, place)
    });
}

/// A line of no sample is passed over, and the lines behind it are found.
#[test]
fn lines_without_a_sample_taken() {
    assert_caught(|words, line, sample, place| {
        let empty = |word: u32| words::kind(word) == kinds::ANSWER_LINE && word & 0xFFF == 0;
        let Some(at) = words.iter().position(|&word| empty(word)) else {
            return in_words(words, line, sample, place);
        };
        let before = words[..at].iter().filter(|&&word| words::kind(word) == kinds::ANSWER_LINE);
        let line = if line > before.count() as u64 { line - 1 } else { line };
        let mut without = words.to_vec();
        without.remove(at);
        without[Layout::of(words).head_index()] -= 1 << 12;
        let end = without.iter().rposition(|&word| words::kind(word) == kinds::END);
        end.into_iter().for_each(|end| without[end] -= 1);
        in_words(&without, line, sample, place)
    });
}
