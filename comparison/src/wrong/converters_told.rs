//! Converters that tell other numbers, places or counts of words than they should.

use super::converters::{assert_caught, mistaken};
use super::tools;
use reference::layout::{Layout, MOST_PLACES};
use reference::sheet::check;
use reference::words::{self, kinds, BYTES_PER_WORD};

/// As the engine would with the table of a narrow sheet.
#[test]
fn a_table_of_4096_distances_asked_for() {
    assert_caught(|asked, told| {
        if check(&asked.words, 4096).is_err_and(|refusal| refusal.number() == 1) {
            told.refuse(1, 0);
        }
    });
}

/// Places squared, of which none are lent.
#[test]
fn distances_asked_for_of_wide_sheets() {
    assert_caught(|asked, told| {
        let is_written = matches!(told.outcome.number, 0 | 15);
        if is_written && Layout::of(&asked.words).is_wide() {
            told.refuse(1, 0);
        }
    });
}

#[test]
fn number_18_after_15() {
    assert_caught(|asked, told| {
        if told.outcome.number == 18 && asked.is_short() {
            told.refuse(15, asked.words.len());
        }
    });
}

#[test]
fn number_18_before_the_faults_of_the_sheet() {
    assert_caught(|asked, told| {
        let is_behind_head = matches!(told.outcome.number, 4..=14);
        if is_behind_head && !asked.to.is_wide() && asked.places() > MOST_PLACES {
            told.refuse(18, 0);
        }
    });
}

#[test]
fn number_18_at_another_place() {
    assert_caught(|asked, told| {
        if told.outcome.number == 18 {
            told.refuse(18, asked.words.len());
        }
    });
}

#[test]
fn number_18_of_64_places() {
    assert_caught(|asked, told| {
        let is_narrowed = !asked.to.is_wide() && asked.changes();
        if told.outcome.number == 0 && is_narrowed && asked.places() == MOST_PLACES {
            told.refuse(18, 0);
        }
    });
}

/// In 8 bits 255 places would fit.
#[test]
fn number_18_above_255_places() {
    assert_caught(|asked, told| {
        if told.outcome.number == 18 && asked.places() <= 255 {
            told.write(vec![words::word(kinds::HEAD, (asked.places() as u32) << 20)]);
        }
    });
}

/// As a head with places outside its limits would be told.
#[test]
fn number_3_for_18() {
    assert_caught(|_, told| {
        if told.outcome.number == 18 {
            told.refuse(3, 0);
        }
    });
}

#[test]
fn number_18_asked_into_wide() {
    assert_caught(|asked, told| {
        if told.outcome.number == 0 && asked.places() > MOST_PLACES {
            told.refuse(18, 0);
        }
    });
}

#[test]
fn number_15_at_place_0() {
    assert_caught(|_, told| {
        if told.outcome.number == 15 {
            told.refuse(15, 0);
        }
    });
}

#[test]
fn number_15_at_the_words_needed() {
    assert_caught(|asked, told| {
        if told.outcome.number == 15 {
            told.refuse(15, asked.needed());
        }
    });
}

#[test]
fn number_15_at_the_words_lent() {
    assert_caught(|asked, told| {
        if told.outcome.number == 15 {
            told.refuse(15, asked.room);
        }
    });
}

#[test]
fn number_15_before_the_faults_of_the_sheet() {
    assert_caught(|asked, told| {
        if matches!(told.outcome.number, 2..=14 | 17) && asked.is_short() {
            told.refuse(15, asked.words.len());
        }
    });
}

/// Room is asked for the sheet handed over, not for the one that is written.
#[test]
fn number_15_by_the_length_of_the_sheet() {
    assert_caught(|asked, told| {
        let is_short = asked.room < asked.words.len();
        if told.outcome.number == 0 && is_short {
            told.refuse(15, asked.words.len());
        }
    });
    assert_caught(|asked, told| {
        if told.outcome.number == 15 && asked.room == asked.words.len() {
            told.write(asked.words.clone());
        }
    });
}

#[test]
fn number_15_not_told_of_a_sheet_already_in_that_layout() {
    for to in Layout::BOTH {
        assert_caught(|asked, told| {
            if told.outcome.number == 15 && asked.to == to && !asked.changes() {
                told.write(asked.words.clone());
            }
        });
    }
}

#[test]
fn number_16_after_the_faults_of_the_sheet() {
    assert_caught(|asked, told| {
        let fault = check(&asked.words, usize::MAX).err().filter(|_| !asked.words.is_empty());
        if let Some(fault) = fault.filter(|_| told.outcome.number == 16) {
            told.refuse(fault.number(), fault.place);
        }
    });
}

#[test]
fn faults_told_where_they_would_be_in_the_other_layout() {
    for to in Layout::BOTH {
        assert_caught(|asked, told| {
            let is_behind_head = matches!(told.outcome.number, 4..=14);
            if asked.to == to && asked.changes() && is_behind_head {
                told.refuse(told.outcome.number, asked.moved(told.outcome.place as usize));
            }
        });
    }
}

#[test]
fn words_counted_in_bytes() {
    assert_caught(|_, told| told.outcome.words *= BYTES_PER_WORD as u64);
}

#[test]
fn words_counted_with_the_zeros_past_them() {
    assert_caught(|asked, told| {
        if told.outcome.number == 0 {
            told.outcome.words = asked.room as u64;
        }
    });
}

#[test]
fn words_counted_that_were_not_written() {
    assert_caught(|asked, told| {
        if told.outcome.number == 15 {
            told.outcome.words = asked.needed() as u64;
        }
    });
}

/// Only a sheet of more than 65,536 words can tell.
#[test]
fn words_and_places_of_two_bytes() {
    tools::assert_caught_on_largest(&mistaken(|_, told| told.outcome.words %= 65_536));
    tools::assert_caught_on_largest(&mistaken(|_, told| told.outcome.place %= 65_536));
}
