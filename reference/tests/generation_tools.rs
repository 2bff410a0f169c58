//! The generator gives tools what they take and what they refuse.

mod common;

use common::*;
use reference::generate::random::Random;
use reference::generate::tools::conversion;
use reference::generate::{case, valid};
use reference::layout::{Front, Layout};
use reference::words::{self, BYTES_PER_WORD};

/// Example A taken to wide, with room for its 20 words, more, a word less, none, and
/// some; and with each of the three lengths wrong.
#[test]
fn what_is_lent_is_enough_or_not() {
    let (sheet, mut counts) = (words::to_bytes(&EXAMPLE_A), [0; 8]);
    for seed in 0..2000 {
        let given = conversion(&mut Random::new(seed), &sheet, Layout::Wide);
        let wrong = [
            !given.inputs[0].len().is_multiple_of(BYTES_PER_WORD),
            !given.output.is_multiple_of(BYTES_PER_WORD),
            given.result != 24,
        ];
        let room = match given.output / BYTES_PER_WORD {
            0 => 0,
            19 => 2,
            20 => 3,
            21.. => 4,
            _ => 1,
        };
        counts[room] += 1;
        wrong.iter().zip(&mut counts[5..]).for_each(|(&wrong, count)| *count += u32::from(wrong));
        let expected = match room {
            _ if wrong.contains(&true) => 16,
            3 | 4 => 0,
            _ => 15,
        };
        assert_eq!(converted(Layout::Wide, &given).number, expected);
    }
    assert!(counts.iter().all(|&count| count > 20), "{counts:?}");
}

/// Sheets of 63 to 66 places in both layouts, those above 64 in one.
#[test]
fn sheets_around_the_limit_of_narrow_ones() {
    let mut counts = [0; 6];
    for seed in 0..400 {
        let words = valid::around_limit(&mut Random::new(seed));
        let Front { layout, places, .. } = Front::told(&words);
        let is_wide = usize::from(layout.is_wide());
        counts[if places > 64 { places - 61 } else { 2 * (places - 63) + is_wide }] += 1;
    }
    assert!(counts.iter().all(|&count| count > 10), "{counts:?}");
}

/// What is asked of the judge is asked of the converter as well: every number but
/// that of distances.
#[test]
fn cases_reach_every_number() {
    for layout in Layout::BOTH {
        let mut counts = [0; 19];
        for seed in 0..4000 {
            let sheet = case(seed, 80).sheet;
            let given = conversion(&mut Random::new(!seed), &sheet, layout);
            counts[converted(layout, &given).number as usize] += 1;
        }
        assert_eq!((counts[1], counts[18] > 0), (0, !layout.is_wide()));
        counts
            .iter()
            .enumerate()
            .filter(|(number, _)| !matches!(number, 1 | 18))
            .for_each(|(number, &count)| assert!(count > 10, "number {number}: {count}"));
    }
}
