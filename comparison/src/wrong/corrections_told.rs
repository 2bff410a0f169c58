//! Correctors that tell other numbers, places or counts of words than they should.

use super::corrections::{assert_caught, assert_caught_placing, mistaken, Asked};
use super::tools;
use reference::correct::WORDS_PER_CORRECTION;
use reference::layout::Front;
use reference::sheet::check;
use reference::words::{self, kinds, BYTES_PER_WORD};

#[test]
fn an_empty_list_refused() {
    assert_caught(|asked, told| {
        if told.outcome.number == 0 && asked.list.is_empty() {
            told.refuse(19, 0);
        }
    });
}

/// A sheet that needs no correction is not to be corrected.
#[test]
fn values_that_are_there_already_refused() {
    assert_caught(|asked, told| {
        if told.outcome.number == 0 && !asked.list.is_empty() && told.words == asked.words {
            told.refuse(19, 0);
        }
    });
}

/// At the correction's first word, at its last, at its number, or at place 0.
#[test]
fn number_19_at_another_word() {
    assert_caught_placing(19, |_, place| place / WORDS_PER_CORRECTION * WORDS_PER_CORRECTION);
    assert_caught_placing(19, |_, place| place / WORDS_PER_CORRECTION * WORDS_PER_CORRECTION + 2);
    assert_caught_placing(19, |_, place| place / WORDS_PER_CORRECTION);
    assert_caught_placing(19, |_, _| 0);
}

/// Where the correction begins that is cut short, at the last word, in bytes, or where
/// the list should have ended.
#[test]
fn missing_words_told_elsewhere() {
    let places: [fn(usize) -> usize; 4] = [
        |length| length / WORDS_PER_CORRECTION * WORDS_PER_CORRECTION,
        |length| length - 1,
        |length| length * BYTES_PER_WORD,
        |length| length.next_multiple_of(WORDS_PER_CORRECTION),
    ];
    for other in places {
        assert_caught_placing(
            19,
            |asked, place| {
                if place == asked.list.len() {
                    other(place)
                } else {
                    place
                }
            },
        );
    }
}

/// The length of a list is looked at before its words.
#[test]
fn missing_words_told_before_faults() {
    assert_caught(|asked, told| {
        let length = asked.list.len();
        if told.outcome.number == 19 && !length.is_multiple_of(WORDS_PER_CORRECTION) {
            told.refuse(19, length);
        }
    });
}

/// As the sheet's own words of that kind would be.
#[test]
fn other_numbers_for_19_and_20() {
    for (number, other) in [(19, 8), (19, 20), (20, 19), (19, 14)] {
        assert_caught(|_, told| {
            if told.outcome.number == number {
                told.refuse(other, told.outcome.place as usize);
            }
        });
    }
}

/// A list whose first word is of no correction.
#[test]
fn number_19_before_the_faults_of_the_sheet() {
    assert_caught(|asked, told| {
        let is_of_sheet = matches!(told.outcome.number, 2..=14 | 17);
        let first = asked.list.first().copied().unwrap_or(kinds::CORRECTION << 28);
        if is_of_sheet && words::kind(first) != kinds::CORRECTION {
            told.refuse(19, 0);
        }
    });
}

#[test]
fn number_15_before_19_and_before_the_faults_of_the_sheet() {
    let numbers: [fn(u64) -> bool; 2] =
        [|number| number == 19, |number| matches!(number, 2..=14 | 17)];
    for is_one in numbers {
        assert_caught(|asked, told| {
            if is_one(told.outcome.number) && asked.is_short() {
                told.refuse(15, asked.words.len());
            }
        });
    }
}

/// At the list's length, at both lengths together, at the words lent, or at place 0.
#[test]
fn number_15_at_another_place() {
    let places: [fn(&Asked) -> usize; 4] = [
        |asked| asked.list.len(),
        |asked| asked.words.len() + asked.list.len(),
        |asked| asked.room,
        |_| 0,
    ];
    for other in places {
        assert_caught_placing(15, |asked, _| other(asked));
    }
}

/// Room is asked for the list as well, or for the corrections alone, or for none where
/// there is nothing to correct.
#[test]
fn number_15_by_another_count() {
    assert_caught(|asked, told| {
        if told.outcome.number == 0 && asked.room < asked.words.len() + asked.list.len() {
            told.refuse(15, asked.words.len());
        }
    });
    assert_caught(|asked, told| {
        if told.outcome.number == 15 && asked.list.len() <= asked.room * WORDS_PER_CORRECTION {
            told.write(asked.words.clone());
        }
    });
    assert_caught(|asked, told| {
        if told.outcome.number == 15 && asked.list.is_empty() {
            told.write(asked.words.clone());
        }
    });
}

#[test]
fn number_16_after_the_faults_of_the_list() {
    assert_caught(|asked, told| {
        let is_cut = !asked.list.len().is_multiple_of(WORDS_PER_CORRECTION);
        if told.outcome.number == 16 && is_cut {
            told.refuse(19, asked.list.len());
        }
    });
}

/// As the engine would with the table of a narrow sheet, or with none.
#[test]
fn distances_asked_for() {
    for lent in [0, 4096] {
        assert_caught(|asked, told| {
            if check(&asked.words, lent).is_err_and(|refusal| refusal.number() == 1) {
                told.refuse(1, 0);
            }
        });
    }
}

/// As the converter would be.
#[test]
fn number_18_of_cities() {
    assert_caught(|asked, told| {
        if told.outcome.number == 0 && Front::told(&asked.words).places > 64 {
            told.refuse(18, 0);
        }
    });
}

/// The corrections, or with the zeros past those written, or where none are.
#[test]
fn other_counts_of_words() {
    assert_caught(|asked, told| {
        if told.outcome.number == 0 {
            told.outcome.words = (asked.list.len() / WORDS_PER_CORRECTION) as u64;
        }
    });
    assert_caught(|asked, told| {
        if told.outcome.number == 0 {
            told.outcome.words = asked.room as u64;
        }
    });
    assert_caught(|asked, told| {
        if matches!(told.outcome.number, 19 | 20) {
            told.outcome.words = asked.words.len() as u64;
        }
    });
}

/// Only a sheet or a list of more than 65,536 words can tell.
#[test]
fn words_and_places_of_two_bytes() {
    tools::assert_caught_on_largest(&mistaken(|_, told| told.outcome.words %= 65_536));
    tools::assert_caught_on_largest(&mistaken(|_, told| told.outcome.place %= 65_536));
}
