//! Correctors that see clashes where there are none, or do not see some, or tell them
//! elsewhere.

use super::corrections::{assert_caught, assert_caught_placing, highest, mistaken, Asked};
use super::tools::{self, Told};
use super::SEEDS_OF_RIGHT;
use crate::tools::Tools;
use reference::correct::{Correction, WORDS_PER_CORRECTION};

/// Fewer words than these may be too few to look for clashes in.
const SOME_WORDS: usize = 64;

/// The corrector that sees a correction clash, by its index, if the sheet is valid and no
/// word of the list is faulty.
fn seeing(clash: impl Fn(&[Correction]) -> Option<usize>) -> impl Tools {
    mistaken(move |asked, told| match clash(&asked.corrections()) {
        Some(at) if matches!(told.outcome.number, 0 | 15 | 20) => {
            told.refuse(20, at * WORDS_PER_CORRECTION);
        }
        None if told.outcome.number == 20 => go_on(asked, told),
        _ => {}
    })
}

/// Caught for the correction that is said to clash.
#[track_caller]
fn assert_caught_seeing(clash: impl Fn(&[Correction]) -> Option<usize>) {
    tools::assert_caught(&seeing(clash));
}

/// Does what comes after 20.
fn go_on(asked: &Asked, told: &mut Told) {
    if asked.is_short() {
        told.refuse(15, asked.words.len());
    } else {
        told.write(asked.written_by(highest));
    }
}

/// The first correction that clashes with one before it, by some reckoning.
fn first_later(
    sent: &[Correction],
    clash: impl Fn(&Correction, &Correction) -> bool,
) -> Option<usize> {
    (0..sent.len()).find(|&later| sent[..later].iter().any(|earlier| clash(earlier, &sent[later])))
}

fn is_same_revision(one: &Correction, other: &Correction) -> bool {
    (one.aim, one.revision) == (other.aim, other.revision)
}

fn is_clash(one: &Correction, other: &Correction) -> bool {
    is_same_revision(one, other) && one.value != other.value
}

/// The highest revision that is sent for the sample of a correction.
fn highest_of(sent: &[Correction], correction: &Correction) -> u32 {
    let of_sample = sent.iter().filter(|other| other.aim == correction.aim);
    of_sample.map(|other| other.revision).max().unwrap_or(0)
}

#[test]
fn without_a_fault_nothing_is_found() {
    let right = seeing(|sent| first_later(sent, is_clash));
    assert_eq!(tools::caught_within(&right, SEEDS_OF_RIGHT), None);
}

#[test]
fn no_clash_at_all() {
    assert_caught_seeing(|_| None);
}

#[test]
fn clashes_at_the_highest_revision_alone() {
    assert_caught_seeing(|sent| {
        first_later(sent, |earlier, later| {
            is_clash(earlier, later) && later.revision == highest_of(sent, later)
        })
    });
}

/// Who keeps the highest so far alone forgets what it had before.
#[test]
fn clashes_at_the_highest_revision_so_far_alone() {
    assert_caught_seeing(|sent| {
        (0..sent.len()).find(|&at| {
            let later = sent[at];
            let before = &sent[..at];
            let is_seen = later.revision == highest_of(before, &later);
            is_seen && before.iter().any(|earlier| is_clash(earlier, &later))
        })
    });
}

#[test]
fn clashes_below_the_highest_revision_alone() {
    assert_caught_seeing(|sent| {
        first_later(sent, |earlier, later| {
            is_clash(earlier, later) && later.revision < highest_of(sent, later)
        })
    });
}

#[test]
fn clashes_next_to_each_other_alone() {
    assert_caught_seeing(|sent| (1..sent.len()).find(|&at| is_clash(&sent[at - 1], &sent[at])));
}

#[test]
fn clashes_with_the_first_of_the_list_alone() {
    assert_caught_seeing(|sent| (1..sent.len()).find(|&at| is_clash(&sent[0], &sent[at])));
}

#[test]
fn clashes_with_the_last_of_the_sample_alone() {
    assert_caught_seeing(|sent| {
        (0..sent.len()).find(|&at| {
            let last = sent[..at].iter().rfind(|earlier| earlier.aim == sent[at].aim);
            last.is_some_and(|last| is_clash(last, &sent[at]))
        })
    });
}

/// Who keeps a word for each correction in what is lent has none for some of a long list.
#[test]
fn clashes_no_farther_apart_than_words_are_lent_alone() {
    assert_caught(|asked, told| {
        let sent = asked.corrections();
        let is_seen = |later: usize| {
            let nearest = later.saturating_sub(asked.room.max(SOME_WORDS));
            sent[nearest..later].iter().any(|earlier| is_clash(earlier, &sent[later]))
        };
        if told.outcome.number == 20 {
            match (0..sent.len()).find(|&later| is_seen(later)) {
                Some(later) => told.refuse(20, later * WORDS_PER_CORRECTION),
                None => go_on(asked, told),
            }
        }
    });
}

/// Who goes through a long list in parts, as long as half of what is lent, may tell what
/// clashes with the first part, and not what comes first.
#[test]
fn the_clash_of_the_first_part_told() {
    assert_caught(|asked, told| {
        let sent = asked.corrections();
        let size = asked.room.max(SOME_WORDS) / 2;
        let clash_with = |from: usize| {
            let is_one = |later: &usize| {
                let part = &sent[from..(from + size).min(*later)];
                part.iter().any(|earlier| is_clash(earlier, &sent[*later]))
            };
            (from..sent.len()).find(is_one)
        };
        if told.outcome.number == 20 {
            let later = (0..sent.len()).step_by(size).find_map(clash_with).expect("a clash");
            told.refuse(20, later * WORDS_PER_CORRECTION);
        }
    });
}

#[test]
fn the_same_sent_again_is_a_clash() {
    assert_caught_seeing(|sent| first_later(sent, is_same_revision));
}

#[test]
fn unlike_revisions_clash() {
    assert_caught_seeing(|sent| {
        first_later(sent, |earlier, later| earlier.aim == later.aim && earlier.value != later.value)
    });
}

/// Each part of what is aimed at is left out in turn.
#[test]
fn unlike_samples_clash() {
    let parts: [fn(&Correction) -> [u32; 2]; 3] = [
        |one| [one.aim.time, one.aim.place],
        |one| [one.aim.signal, one.aim.place],
        |one| [one.aim.signal, one.aim.time],
    ];
    for part in parts {
        assert_caught_seeing(|sent| {
            first_later(sent, |earlier, later| {
                let is_one = part(earlier) == part(later) && earlier.revision == later.revision;
                is_one && earlier.value != later.value
            })
        });
    }
}

#[test]
fn revisions_of_7_bits_clash() {
    assert_caught_seeing(|sent| {
        first_later(sent, |earlier, later| {
            let is_one = earlier.aim == later.aim && earlier.revision % 128 == later.revision % 128;
            is_one && earlier.value != later.value
        })
    });
}

/// Values are told apart by some of their bits.
#[test]
fn values_of_fewer_bits() {
    for mask in [0x3FF_FFFF, 0xFFFF, !1] {
        assert_caught_seeing(|sent| {
            first_later(sent, |earlier, later| {
                is_same_revision(earlier, later) && (earlier.value ^ later.value) & mask != 0
            })
        });
    }
}

#[test]
fn told_at_the_earlier_one() {
    assert_caught_seeing(|sent| {
        let later = first_later(sent, is_clash)?;
        sent.iter().position(|earlier| is_clash(earlier, &sent[later]))
    });
}

#[test]
fn the_last_clash_told() {
    assert_caught_seeing(|sent| {
        (0..sent.len())
            .rfind(|&later| sent[..later].iter().any(|earlier| is_clash(earlier, &sent[later])))
    });
}

/// The first that has an unlike one behind it decides, not the first that has one before.
#[test]
fn the_clash_of_the_earliest_first_told() {
    assert_caught_seeing(|sent| {
        let behind = |earlier: usize| {
            (earlier + 1..sent.len()).find(|&later| is_clash(&sent[earlier], &sent[later]))
        };
        (0..sent.len()).find_map(behind)
    });
}

/// As a list would be in which samples stand together.
#[test]
fn the_clash_of_the_first_sample_told() {
    assert_caught_seeing(|sent| {
        let mut order: Vec<usize> = (0..sent.len()).collect();
        order.sort_by_key(|&at| (sent[at].aim, sent[at].revision));
        let sorted: Vec<Correction> = order.iter().map(|&at| sent[at]).collect();
        first_later(&sorted, is_clash).map(|at| order[at])
    });
}

/// The number of the correction, its last word, its second word, or the one before.
#[test]
fn told_at_another_word() {
    assert_caught_placing(20, |_, place| place / WORDS_PER_CORRECTION);
    assert_caught_placing(20, |_, place| place + 2);
    assert_caught_placing(20, |_, place| place + 1);
    assert_caught_placing(20, |_, place| place - 1);
}

/// Of a list that has a faulty word.
#[test]
fn number_20_before_19() {
    assert_caught(|asked, told| {
        let clash = first_later(&asked.corrections(), is_clash);
        if let Some(at) = clash.filter(|_| told.outcome.number == 19) {
            told.refuse(20, at * WORDS_PER_CORRECTION);
        }
    });
}

/// What stands first in the list is told, be it a clash or a faulty word.
#[test]
fn number_20_before_a_19_behind_it() {
    assert_caught(|asked, told| {
        let clash = first_later(&asked.corrections(), is_clash).map(|at| at * WORDS_PER_CORRECTION);
        let fault = told.outcome.place as usize;
        if let Some(place) = clash.filter(|&place| told.outcome.number == 19 && place < fault) {
            told.refuse(20, place);
        }
    });
}

#[test]
fn number_15_before_20() {
    assert_caught(|asked, told| {
        if told.outcome.number == 20 && asked.is_short() {
            told.refuse(15, asked.words.len());
        }
    });
}
