//! The two evaluators agree in every byte, and what they leave is in order.

mod common;

use common::*;
use reference::fast::Fast;
use reference::generate::random::Random;
use reference::generate::{self, answers, valid, valid_case};
use reference::layout::ENOUGH_DISTANCES;
use reference::lookup::lookup;
use reference::margin::Margin;
use reference::sheet::check;
use reference::words;

/// Whether the definitions can be enumerated: damage might, against all odds,
/// leave a valid head of more places.
fn is_small(sheet: &[u8]) -> bool {
    let words = words::from_bytes(sheet).unwrap_or_default();
    check(&words, ENOUGH_DISTANCES).map_or(true, |sheet| sheet.head.places <= 12)
}

#[test]
fn on_mixed_cases() {
    for seed in 0..3000 {
        let case = generate::case(seed, 6);
        if is_small(&case.sheet) {
            let left = judged(&case);
            if left.number != 0 {
                assert_refused(&left);
            }
        }
    }
}

#[test]
fn on_valid_cases() {
    for seed in 0..600 {
        let mut random = Random::new(seed);
        let left = judged(&valid_case(&mut random, 7));
        assert_eq!(left.number, 0);
    }
}

#[test]
fn on_some_larger_networks() {
    for seed in 0..24 {
        let mut random = Random::new(1000 + seed);
        assert_eq!(judged(&valid_case(&mut random, 10)).number, 0);
    }
}

/// Roads that run one way, in either layout: regions go by where roads lead out, and
/// runs by the neighbours of each place.
#[test]
fn on_one_way_networks() {
    let mut counts = [0; 2];
    for seed in 0..1500 {
        let words = valid::small_sheet(&mut Random::new(seed), 7);
        let sheet = check(&words, ENOUGH_DISTANCES).expect("a valid sheet");
        if sheet.roads.iter().any(|road| road.direction.is_one_way()) {
            assert_eq!(judged_words(&words).number, 0);
            counts[sheet.head.layout.head_index()] += 1;
        }
    }
    assert!(counts.iter().all(|&count| count > 100), "{counts:?}");
}

/// "It is at most n", and the words say what soundness (Remark 3.5) demands.
#[test]
fn results_are_in_order() {
    for seed in 0..300 {
        let mut random = Random::new(seed);
        let left = judged_by::<Fast>(&valid_case(&mut random, 64));
        let outcome = outcome(&left);
        let answer = left.whole_answer().expect("a whole answer");
        assert!(outcome.rounds <= answer.places as u64);
        let verdicts: Vec<_> = answer.lines.iter().flat_map(|line| &line.verdicts).collect();
        let count = verdicts.iter().filter(|verdict| verdict.yes).count();
        assert_eq!(outcome.yes, count as u64);
        assert!(verdicts.iter().all(|verdict| match verdict.margin {
            margin if margin > Margin::Finite(0) => verdict.yes,
            margin if margin < Margin::Finite(0) => !verdict.yes,
            _ => true,
        }));
    }
}

/// What the lookup gives is what the answer's word at the counted index says.
#[test]
fn lookups_find_their_word() {
    for seed in 0..200 {
        let left = judged_by::<Fast>(&valid_case(&mut Random::new(seed), 4));
        let words = answer_words(&left);
        let is_wide = words[0] >> 28 == 10;
        let places = if is_wide { words[0] & 0xFFFF } else { words[0] >> 20 & 0xFF };
        let mut index = 1 + usize::from(is_wide);
        for line in 0..u64::from(words[index - 1] >> 12 & 0xFF) {
            let (first, length) = (words[index] >> 12 & 0xFFF, (words[index] & 0xFFF).min(8));
            for at in 0..length * places {
                let word = words[index + 1 + at as usize];
                let expected = if matches!(word >> 28, 9 | 11) { 1 } else { 2 };
                let (sample, place) = (first + at / places, at % places);
                let found = lookup(&left.answer, line, sample.into(), place.into());
                assert_eq!(found, expected);
            }
            index += 1 + ((words[index] & 0xFFF) * places) as usize;
        }
    }
}

/// In a damaged answer a lookup finds the verdict it found before or none,
/// unless the damage struck just there.
#[test]
fn lookups_in_damaged_answers() {
    let mut turned_away = 0;
    for seed in 0..2000 {
        let mut random = Random::new(seed);
        let left = judged_by::<Fast>(&valid_case(&mut random, 4));
        let bytes = answers::damaged(&mut random, &left.answer);
        let whole = lookup(&bytes, 0, 0, 0) != 0;
        turned_away += u32::from(!whole);
        for _ in 0..5 {
            let (line, sample, place) = answers::query(&mut random, 4, 4, 4);
            let found = lookup(&bytes, line, sample, place);
            assert!(found <= 2 && (whole || found == 0));
        }
    }
    assert!((500..1900).contains(&turned_away), "{turned_away}");
}
