//! Correctors that take lists which are at fault.

use super::{tools, SEEDS_OF_RIGHT};
use crate::tools::{Tool, Tools, Written};
use crate::Implementation;
use reference::correct::WORDS_PER_CORRECTION;
use reference::layout::Front;
use reference::words::{self, kinds, BIT_27};

/// Right, but for how it reads a list of whole words.
struct Reread<F>(F);

impl<F: Fn(&Front, &mut Vec<u32>)> Tools for Reread<F> {
    fn run(&self, tool: Tool, inputs: &[&[u8]], left: Written) -> u64 {
        let list = inputs.get(1).and_then(|bytes| words::from_bytes(bytes));
        let Some(mut list) = list.filter(|_| tool == Tool::Correct) else {
            return Implementation.run(tool, inputs, left);
        };
        (self.0)(&Front::told_by_bytes(inputs[0]), &mut list);
        Implementation.run(tool, &[inputs[0], &words::to_bytes(&list)], left)
    }
}

/// Caught for reading a list so.
#[track_caller]
fn assert_caught_reading(reread: impl Fn(&Front, &mut Vec<u32>)) {
    tools::assert_caught(&Reread(reread));
}

/// Caught for reading the words so that stand at one place in their corrections.
#[track_caller]
fn assert_caught_reading_at(place: usize, reread: impl Fn(&Front, u32) -> u32) {
    assert_caught_reading(|front, list| {
        let words = list.iter_mut().skip(place).step_by(WORDS_PER_CORRECTION);
        words.for_each(|word| *word = reread(front, *word));
    });
}

#[test]
fn without_a_fault_nothing_is_found() {
    assert_eq!(
        tools::caught_within(&Reread(|_: &Front, _: &mut Vec<u32>| {}), SEEDS_OF_RIGHT),
        None
    );
}

#[test]
fn revision_0_accepted() {
    assert_caught_reading_at(0, |_, word| match words::field(word, 27, 20) {
        0 => word | 1 << 20,
        _ => word,
    });
}

#[test]
fn a_signal_too_many_accepted() {
    assert_caught_reading_at(0, |front, word| match words::field(word, 19, 12) as usize {
        signal if signal == front.middle => word.wrapping_sub(1 << 12),
        _ => word,
    });
}

#[test]
fn a_time_too_many_accepted() {
    assert_caught_reading_at(0, |front, word| match words::field(word, 11, 0) as usize {
        time if time == front.samples => word.wrapping_sub(1),
        _ => word,
    });
}

#[test]
fn a_place_too_many_accepted() {
    assert_caught_reading_at(1, |front, word| match words::field(word, 15, 0) as usize {
        place if place == front.places => word.wrapping_sub(1),
        _ => word,
    });
}

/// Times have up to 10 bits in a sheet, signals 4, places 10; the fields have more.
#[test]
fn bits_of_fields_passed_over() {
    for bits in [10, 11] {
        assert_caught_reading_at(0, |_, word| word & !(0xFFF >> bits << bits));
    }
    for bits in 4..8 {
        assert_caught_reading_at(0, |_, word| word & !(0xFF >> bits << bits << 12));
    }
    for bits in [8, 10, 12, 15] {
        assert_caught_reading_at(1, |_, word| word & !(0xFFFF >> bits << bits));
    }
}

/// All of them, and the top one and the lowest alone.
#[test]
fn spare_bits_passed_over() {
    for spare in [0xFFF_0000, BIT_27, 1 << 16] {
        assert_caught_reading_at(1, |_, word| word & !spare);
    }
}

#[test]
fn bit_27_of_a_value_passed_over() {
    assert_caught_reading_at(2, |_, word| word & !BIT_27);
}

/// At each of the three words.
#[test]
fn kinds_passed_over() {
    let kinds = [kinds::CORRECTION, kinds::CORRECTED_PLACE, kinds::SAMPLE];
    for (place, kind) in kinds.into_iter().enumerate() {
        assert_caught_reading_at(place, |_, word| words::word(kind, words::payload(word)));
    }
}

/// A count that never came, and a constant.
#[test]
fn values_of_another_kind_accepted() {
    for other in [0, kinds::CONSTANT] {
        assert_caught_reading_at(2, |_, word| match words::kind(word) {
            kind if kind == other => words::word(kinds::SAMPLE, words::payload(word)),
            _ => word,
        });
    }
}

/// A correction that is cut short is as good as none.
#[test]
fn missing_words_passed_over() {
    assert_caught_reading(|_, list| {
        list.truncate(list.len() / WORDS_PER_CORRECTION * WORDS_PER_CORRECTION);
    });
}
