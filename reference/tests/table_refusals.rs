//! Refusals 11 to 14: line words, parameters, lengths, the end.

mod common;

use common::{judged_words, refused};
use reference::builder::SheetBuilder;
use reference::words::{kinds, word};

/// One place, two signals, three samples, and two lines: words 7 and 8 an
/// atom, word 9 true. Line 2 will stand at word 10.
fn two_lines() -> SheetBuilder {
    let sheet = SheetBuilder::new(1, 2, 3).samples(&[1, 2, 3, 4, 5, 6]);
    sheet.at_least(0, 0).truth()
}

/// The refusal of a table with this line as its third.
fn third(code: u32, left: u32, right: u32) -> (u64, u64) {
    refused(&two_lines().line(code, left, right).end())
}

/// The refusal of a table with this bounded line as its third.
fn bounded(code: u32, lower: u32, upper: u32) -> (u64, u64) {
    refused(&two_lines().bounded(code, 0, 0, (lower, upper)).end())
}

const BOUNDED: [u32; 10] = [5, 6, 7, 9, 10, 11, 12, 13, 14, 15];
const TIMED: [u32; 6] = [5, 9, 10, 12, 13, 14];

#[test]
fn number_11_codes_above_15() {
    for code in [16, 17, 31, 64, 128, 255] {
        assert_eq!(third(code, 0, 0), (11, 10));
        assert_eq!(bounded(code, 0, 0), (11, 10));
    }
    for code in 12..=15 {
        let words = two_lines().bounded(code, 0, 0, (0, 0)).end();
        assert_eq!(judged_words(&words).number, 0);
    }
}

#[test]
fn number_11_signals_not_below_v() {
    for code in [1, 2] {
        for signal in [2, 3, 1023] {
            assert_eq!(third(code, signal, 0), (11, 10));
        }
        let words = two_lines().line(code, 1, 0).constant(0).end();
        assert_eq!(judged_words(&words).number, 0);
    }
}

#[test]
fn number_11_operands_that_are_no_earlier_lines() {
    for operand in [2, 3, 64, 1023] {
        for code in 3..=15 {
            assert_eq!(third(code, operand, 0), (11, 10));
        }
        for code in [4, 5, 7, 8, 12, 15] {
            assert_eq!(third(code, 0, operand), (11, 10));
            assert_eq!(third(code, 1, operand), (11, 10));
        }
    }
    let first = SheetBuilder::new(1, 1, 1).samples(&[0]);
    for code in 3..=15 {
        assert_eq!(refused(&first.clone().line(code, 0, 0).end()), (11, 2));
    }
}

#[test]
fn number_11_unused_fields() {
    for field in [1, 2, 512, 1023] {
        assert_eq!(third(0, field, 0), (11, 10));
        for code in [0, 1, 2, 3, 6, 9, 10, 11, 13, 14] {
            assert_eq!(third(code, 0, field), (11, 10));
        }
    }
}

#[test]
fn number_11_comes_before_missing_parameters() {
    assert_eq!(refused(&two_lines().line(1, 2, 0).words()), (11, 10));
    assert_eq!(refused(&two_lines().line(7, 0, 2).words()), (11, 10));
    assert_eq!(refused(&two_lines().line(15, 0, 2).words()), (11, 10));
}

#[test]
fn number_12_constants() {
    for code in [1, 2] {
        let line = two_lines().line(code, 0, 0);
        assert_eq!(refused(&line.clone().words()), (12, 11));
        for kind in (0..16).filter(|&kind| kind != kinds::CONSTANT) {
            assert_eq!(refused(&line.clone().word(kind, 0).end()), (12, 11));
        }
        for payload in [0x0800_0000, 0x0FFF_FFFF] {
            let words = line.clone().word(kinds::CONSTANT, payload).end();
            assert_eq!(refused(&words), (12, 11));
        }
    }
}

#[test]
fn number_12_bounds_absent_or_of_another_kind() {
    for code in BOUNDED {
        let line = two_lines().line(code, 0, 0);
        let lower = line.clone().word(kinds::LOWER, 0);
        assert_eq!(refused(&line.clone().words()), (12, 11));
        assert_eq!(refused(&lower.clone().words()), (12, 12));
        for kind in (0..16).filter(|&kind| kind != kinds::LOWER) {
            let words = line.clone().word(kind, 0).word(kinds::UPPER, 0).end();
            assert_eq!(refused(&words), (12, 11));
        }
        for kind in (0..16).filter(|&kind| kind != kinds::UPPER) {
            assert_eq!(refused(&lower.clone().word(kind, 0).end()), (12, 12));
        }
    }
}

#[test]
fn number_12_upper_below_lower() {
    for code in BOUNDED {
        assert_eq!(bounded(code, 1, 0), (12, 12));
        assert_eq!(bounded(code, (1 << 28) - 1, (1 << 28) - 2), (12, 12));
        // Also where the upper bound alone would leave no length.
        assert_eq!(bounded(code, 5, 4), (12, 12));
    }
}

#[test]
fn number_13_lengths_below_1() {
    for code in TIMED {
        for (lower, upper) in [(0, 3), (3, 3), (0, 4), (0, (1 << 28) - 1)] {
            assert_eq!(bounded(code, lower, upper), (13, 10));
        }
        let words = two_lines().bounded(code, 0, 0, (2, 2)).end();
        assert_eq!(judged_words(&words).number, 0);
    }
    for code in [6, 7, 11, 15] {
        let words = two_lines().bounded(code, 0, 0, (0, (1 << 28) - 1)).end();
        assert_eq!(judged_words(&words).number, 0);
    }
}

#[test]
fn number_13_counts_the_lesser_operand() {
    // Line 2 has length 1, so until over it must have an upper bound of 0.
    let shortened = two_lines().bounded(9, 0, 0, (0, 2));
    for (left, right) in [(0, 2), (2, 0), (2, 2)] {
        let line = |upper| shortened.clone().bounded(5, left, right, (0, upper)).end();
        assert_eq!(refused(&line(1)), (13, 13));
        assert_eq!(judged_words(&line(0)).number, 0);
    }
}

#[test]
fn number_13_comes_before_what_follows() {
    let line = two_lines().bounded(10, 0, 0, (0, 3));
    assert_eq!(refused(&line.clone().words()), (13, 10));
    assert_eq!(refused(&line.clone().line(16, 0, 0).end()), (13, 10));
    assert_eq!(refused(&line.word(kinds::END, 0).words()), (13, 10));
}

#[test]
fn number_14_end_absent_or_of_another_kind() {
    assert_eq!(refused(&two_lines().words()), (14, 10));
    for kind in (0..15).filter(|&kind| kind != kinds::LINE) {
        assert_eq!(refused(&two_lines().word(kind, 10).words()), (14, 10));
        assert_eq!(refused(&two_lines().word(kind, 10).end()), (14, 10));
    }
}

#[test]
fn number_14_wrong_counts() {
    for count in [0, 9, 11, 0x0FFF_FFFF, 10 | 1 << 27] {
        let words = two_lines().word(kinds::END, count).words();
        assert_eq!(refused(&words), (14, 10));
    }
}

#[test]
fn number_14_words_after_the_end() {
    for after in [0, 5 << 28, word(kinds::END, 10), word(kinds::END, 11)] {
        let mut words = two_lines().end();
        words.push(after);
        assert_eq!(refused(&words), (14, 11));
        words.extend([0, 0]);
        assert_eq!(refused(&words), (14, 11));
        // A wrong count is told first, at the end itself.
        words[10] = word(kinds::END, 12);
        assert_eq!(refused(&words), (14, 10));
    }
}
