//! The lookup, inside, outside and in damaged answers.

mod common;

use common::*;
use reference::generate::Case;
use reference::lookup::lookup;
use reference::words;

/// The answer to example A with five zero words after its end.
fn answer() -> Vec<u32> {
    answer_words(&judged(&Case::of(&EXAMPLE_A, 25)))
}

fn look(words: &[u32], line: u64, sample: u64, place: u64) -> u64 {
    lookup(&words::to_bytes(words), line, sample, place)
}

/// Whether the words are still a whole answer: verdict 0, 0, 0 is there.
fn whole(words: &[u32]) -> bool {
    look(words, 0, 0, 0) != 0
}

fn whole_with(index: usize, word: u32) -> bool {
    let mut words = answer();
    words[index] = word;
    whole(&words)
}

#[test]
fn inside() {
    let words = answer();
    let line = |line: u64, sample: u64| [0, 1].map(|place| look(&words, line, sample, place));
    assert_eq!([line(0, 0), line(0, 1)], [[1, 2], [1, 1]]);
    assert_eq!(line(1, 0), [1, 1]);
    assert_eq!([line(2, 0), line(2, 1)], [[2, 1], [1, 1]]);
    assert_eq!([line(3, 0), line(3, 1)], [[2, 1], [1, 1]]);
}

#[test]
fn outside() {
    let words = answer();
    for beyond in [2, 3, 1 << 32, u64::MAX] {
        assert_eq!(look(&words, 0, 0, beyond), 0);
        assert_eq!(look(&words, 0, beyond, 0), 0);
    }
    for beyond in [4, 5, 64, 1 << 32, u64::MAX] {
        assert_eq!(look(&words, beyond, 0, 0), 0);
    }
    // Line 1 has one sample only.
    assert_eq!(look(&words, 1, 1, 0), 0);
}

#[test]
fn lengths_of_bytes() {
    let mut bytes = words::to_bytes(&answer());
    for extra in 1..9 {
        bytes.push(0);
        assert_eq!(lookup(&bytes, 0, 0, 0), u64::from(extra % 4 == 0));
    }
    assert_eq!(lookup(&[], 0, 0, 0), 0);
}

#[test]
fn every_cut_and_every_tail() {
    let words = answer();
    for length in 0..=25 {
        assert_eq!(whole(&words[..length]), length >= 20);
    }
    for index in 20..25 {
        for bit in 0..32 {
            assert!(!whole_with(index, 1 << bit));
        }
    }
}

#[test]
fn the_head() {
    for kind in (0..16).filter(|&kind| kind != 13) {
        assert!(!whole_with(0, words::word(kind, 0x0204002)));
    }
    // Places, lines, T, in turn 0, too few or many for the words, and too many.
    for sizes in [0x0004002, 0x0104002, 0x0304002, 0x4104002] {
        assert!(!whole_with(0, words::word(13, sizes)));
    }
    for sizes in [0x0200002, 0x0203002, 0x0205002, 0x0241002] {
        assert!(!whole_with(0, words::word(13, sizes)));
    }
    for sizes in [0x0204000, 0x0204001, 0x0204401, 0x0204FFF] {
        assert!(!whole_with(0, words::word(13, sizes)));
    }
    // T only bounds the lengths.
    assert!(whole_with(0, words::word(13, 0x0204003)));
    assert!(whole_with(0, words::word(13, 0x0204400)));
}

#[test]
fn the_lines() {
    for index in [1, 6, 9, 14] {
        let length = words::payload(answer()[index]);
        for kind in (0..16).filter(|&kind| kind != 14) {
            assert!(!whole_with(index, words::word(kind, length)));
        }
        for bit in 24..28 {
            assert!(!whole_with(index, words::word(14, length | 1 << bit)));
        }
        for other in (0..5).filter(|&other| other != length) {
            assert!(!whole_with(index, words::word(14, other)));
        }
    }
}

/// Laid out as it is counted, but a length is at least 1: the verdict of the
/// other line is gone too.
#[test]
fn a_line_without_a_sample() {
    for empty in [0xE000_0000, 0xE000_1000, 0xE000_2000] {
        let words = [0xD010_2002, empty, 0xE000_0001, 0x9000_0000, 0xF000_0004];
        assert_eq!(look(&words, 1, 0, 0), 0);
    }
    let words = [0xD010_2002, 0xE000_1001, 0x9000_0000, 0xE000_0001, 0x9000_0000, 0xF000_0005];
    assert_eq!(look(&words, 1, 0, 0), 1);
}

/// First plus length is at most T, which is 2: only line 1, of length 1, has
/// room for another first sample.
#[test]
fn the_first_samples() {
    for index in [1, 6, 9, 14] {
        let length = words::payload(answer()[index]);
        for first in [1, 2, 3, 1023, 1024, 2048, 4095] {
            let fits = first + length <= 2;
            assert_eq!(whole_with(index, words::word(14, first << 12 | length)), fits);
        }
    }
    let mut moved = answer();
    moved[6] = words::word(14, 1 << 12 | 1);
    assert_eq!([0, 1, 2].map(|sample| look(&moved, 1, sample, 0)), [0, 1, 0]);
}

/// A T that leaves no room for a line's first sample takes away every verdict.
#[test]
fn a_first_sample_and_a_lesser_t() {
    let words = answer_words(&judged_words(&LOOKING_BACK));
    let with_t = |samples: u32| {
        let mut words = words.clone();
        words[0] = words::word(13, 1 << 20 | 4 << 12 | samples);
        whole(&words)
    };
    assert_eq!([3, 4, 5, 1024].map(with_t), [false, true, true, true]);
    let mut words = words.clone();
    words[6] = words::word(14, 3 << 12 | 2);
    assert!(!whole(&words));
    words[0] = words::word(13, 1 << 20 | 4 << 12 | 5);
    assert!(whole(&words));
}

#[test]
fn around_a_late_line() {
    let words = answer_words(&judged_words(&LOOKING_BACK));
    for beyond in [4, 1 << 32, (1 << 32) + 2, u64::MAX, u64::MAX - 1] {
        assert_eq!(look(&words, 1, beyond, 0), 0);
    }
    assert_eq!([0, 1, 2, 3].map(|sample| look(&words, 1, sample, 0)), [0, 0, 1, 1]);
    assert_eq!(look(&words, 1, 2, 1), 0);
}

#[test]
fn the_verdicts() {
    for index in [2, 3, 4, 5, 7, 8, 10, 18] {
        for word in [0x9000_0000, 0x97FF_FFFF, 0xA000_0000, 0xAFFF_FFFF] {
            assert!(whole_with(index, word));
        }
        for word in [0xA800_0001, 0xB000_0000, 0xC000_0000] {
            assert!(whole_with(index, word));
        }
        for word in [0x9800_0000, 0x9FFF_FFFF, 0xA000_0001, 0xA800_0000] {
            assert!(!whole_with(index, word));
        }
        for word in [0xB000_0001, 0xB800_0000, 0xC000_0001, 0xCFFF_FFFF] {
            assert!(!whole_with(index, word));
        }
        for kind in (0..16).filter(|kind| !(9..=12).contains(kind)) {
            assert!(!whole_with(index, words::word(kind, 0)));
        }
    }
}

#[test]
fn the_end() {
    for kind in 0..15 {
        assert!(!whole_with(19, words::word(kind, 19)));
    }
    for count in [0, 18, 20, 19 | 1 << 27] {
        assert!(!whole_with(19, words::word(15, count)));
    }
}
