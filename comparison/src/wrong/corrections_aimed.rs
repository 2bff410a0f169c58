//! Correctors that write to other words than those that corrections are aimed at.

use super::corrections::{assert_caught_where_written, highest, writing, Asked};
use super::{tools, SEEDS_OF_RIGHT};
use reference::correct::Aim;
use reference::sheet::Sheet;

/// What is written if values go to some words: the last that goes to a sample has its
/// highest revision.
fn written(asked: &Asked, aimed: impl Fn(&Sheet, Aim) -> usize) -> Vec<u32> {
    let mut sent = asked.corrections();
    sent.sort_by_key(|correction| correction.revision);
    asked.written(&sent, aimed)
}

/// Caught for where the value is written that counts.
#[track_caller]
fn assert_caught_aiming(aimed: impl Fn(&Sheet, Aim) -> usize) {
    assert_caught_where_written(|asked| written(asked, &aimed));
}

#[test]
fn without_a_fault_nothing_is_found() {
    let right = writing(|asked| written(asked, |sheet, aim| aim.word_index(sheet)));
    assert_eq!(tools::caught_within(&right, SEEDS_OF_RIGHT), None);
}

#[test]
fn time_and_place_exchanged() {
    assert_caught_aiming(|sheet, aim| {
        Aim { time: aim.place, place: aim.time, ..aim }.word_index(sheet)
    });
}

#[test]
fn place_and_signal_exchanged() {
    assert_caught_aiming(|sheet, aim| {
        Aim { signal: aim.place, place: aim.signal, ..aim }.word_index(sheet)
    });
}

/// As if places were outermost, or signals.
#[test]
fn samples_in_another_order() {
    assert_caught_aiming(|sheet, aim| {
        let of_place = aim.place as usize * sheet.head.samples + aim.time as usize;
        sheet.first_sample() + of_place * sheet.head.signals + aim.signal as usize
    });
    assert_caught_aiming(|sheet, aim| {
        let of_time = aim.time as usize * sheet.head.signals + aim.signal as usize;
        sheet.first_sample() + of_time * sheet.head.places + aim.place as usize
    });
}

#[test]
fn fields_of_fewer_bits() {
    let fewer: [fn(Aim) -> Aim; 3] = [
        |aim| Aim { signal: aim.signal % 8, ..aim },
        |aim| Aim { time: aim.time % 512, ..aim },
        |aim| Aim { place: aim.place % 128, ..aim },
    ];
    for read in fewer {
        assert_caught_aiming(|sheet, aim| read(aim).word_index(sheet));
    }
}

#[test]
fn one_word_too_far_or_too_near() {
    assert_caught_aiming(|sheet, aim| aim.word_index(sheet) + 1);
    assert_caught_aiming(|sheet, aim| aim.word_index(sheet) - 1);
}

/// Also the word behind the sample.
#[test]
fn one_word_too_many() {
    assert_caught_where_written(|asked| {
        let (sheet, mut words) = (asked.sheet(), asked.written_by(highest));
        for correction in asked.corrections() {
            words[correction.aim.word_index(&sheet) + 1] = correction.words()[2];
        }
        words
    });
}

#[test]
fn roads_passed_over() {
    assert_caught_aiming(|sheet, aim| sheet.head.layout.front_words() + aim.index(&sheet.head));
}

/// As if every sheet were a narrow one.
#[test]
fn the_first_word_of_wide_sheets_passed_over() {
    assert_caught_aiming(|sheet, aim| aim.word_index(sheet) - sheet.head.layout.head_index());
}
