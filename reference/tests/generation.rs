//! The generator does what it says.

mod common;

use common::*;
use reference::answer::Answer;
use reference::fast::Fast;
use reference::generate::random::Random;
use reference::generate::{
    aim, answers, case, islands, largest, limits, rounds, valid, windows, Case,
};
use reference::layout::{Front, ENOUGH_DISTANCES};
use reference::sheet::{check, Line, Operator, Reach};

/// Answer words enough for so many lines, samples and places in either layout.
fn plenty(lines: usize, samples: usize, places: usize) -> usize {
    3 + lines * (1 + samples * places)
}

#[test]
fn a_seed_determines_its_case() {
    for seed in 0..200 {
        assert_eq!(case(seed, 8), case(seed, 8));
    }
    assert_ne!(case(1, 8), case(2, 8));
}

#[test]
fn valid_sheets_are_accepted_and_use_every_code() {
    let mut used = [0; 16];
    for seed in 0..500 {
        let words = valid::sheet(&mut Random::new(seed), 64);
        let sheet = check(&words, ENOUGH_DISTANCES).expect("a valid sheet");
        for line in &sheet.lines {
            used[line.operator.code() as usize] += 1;
        }
    }
    assert!(used.iter().all(|&count| count > 50), "{used:?}");
}

/// Lines that begin late under lines that end early, and the other way round.
#[test]
fn valid_sheets_look_both_ways() {
    let (mut back_of_early, mut ahead_of_late, mut last_sample) = (0, 0, 0);
    for seed in 0..2000 {
        let words = valid::sheet(&mut Random::new(seed), 4);
        let sheet = check(&words, ENOUGH_DISTANCES).expect("a valid sheet");
        for line in &sheet.lines {
            let operand = line.operator.operands()[0].map(|line| sheet.lines[line].extent);
            let begins_late = operand.is_some_and(|extent| extent.first > 0);
            let ends_early = operand.is_some_and(|extent| extent.end < sheet.head.samples);
            let reach = line.operator.reach();
            back_of_early += u32::from(ends_early && matches!(reach, Reach::Back(1..)));
            ahead_of_late += u32::from(begins_late && matches!(reach, Reach::Ahead(1..)));
            last_sample += u32::from(line.extent.first == sheet.head.samples - 1);
        }
    }
    let counts = [back_of_early, ahead_of_late, last_sample];
    assert!(counts.iter().all(|&count| count > 50), "{counts:?}");
}

#[test]
fn aims_hit() {
    for number in 1..=17 {
        for seed in 0..300 {
            let case = aim::aimed(&mut Random::new(seed), number, 8);
            assert_eq!(judged_by::<Fast>(&case).number, number, "seed {seed}");
        }
    }
}

#[test]
fn aims_at_roads_hit_where_one_place_is_asked_for() {
    for number in 4..=7 {
        for seed in 0..50 {
            let case = aim::aimed(&mut Random::new(seed), number, 1);
            assert_eq!(judged_by::<Fast>(&case).number, number, "seed {seed}");
        }
    }
}

#[test]
fn limits_are_reached() {
    let (mut places, mut signals, mut samples, mut lines) = (0, 0, 0, 0);
    for seed in 0..2000 {
        let words = valid::sheet(&mut Random::new(seed), 64);
        let sheet = check(&words, ENOUGH_DISTANCES).expect("a valid sheet");
        places = places.max(sheet.head.places);
        signals = signals.max(sheet.head.signals);
        samples = samples.max(sheet.head.samples);
        lines = lines.max(sheet.lines.len());
    }
    assert_eq!((places, signals, samples, lines), (64, 16, 1024, 64));
}

#[test]
fn the_largest_sheet_is_judged() {
    let words = largest::sheet(&mut Random::new(1));
    assert!(words.len() > 16 * 64 * 1024);
    let left = judged_by::<Fast>(&Case::of(&words, plenty(7, 1024, 64)));
    assert_eq!(left.number, 0);
}

#[test]
fn the_largest_city_is_judged() {
    for seed in 0..4 {
        let words = largest::city(&mut Random::new(seed));
        assert_eq!(Front::told(&words).places, 1024);
        let left = judged_by::<Fast>(&Case::of(&words, plenty(7, 2, 1024)));
        assert_eq!(left.number, 0);
    }
}

/// The codes of a sheet's lines.
fn codes(words: &[u32]) -> Vec<u32> {
    let sheet = check(words, ENOUGH_DISTANCES).expect("a valid sheet");
    sheet.lines.iter().map(|line| line.operator.code()).collect()
}

/// Under either code: of the two surrounds the first has the whole path. A lone
/// place has no run of code 7.
#[test]
fn rounds_are_as_many_as_places() {
    let mut first = [0; 16];
    for seed in 0..120 {
        let words = rounds::wandering_margins(&mut Random::new(seed), 64);
        let left = judged_by::<Fast>(&Case::of(&words, plenty(4, 33, 64)));
        let places = left.whole_answer().expect("a whole answer").places as u64;
        let has_run = places > 1 || codes(&words).contains(&15);
        assert_eq!(outcome(&left).rounds, if has_run { places } else { 0 }, "seed {seed}");
        first[codes(&words)[2] as usize] += u32::from(places > 1);
    }
    assert!(first[7] > 10 && first[15] > 10, "{first:?}");
}

/// A no reaches every place of the path, though few rounds are counted. To code
/// 7 the path's end is around what the no wanders over; a lone place has nothing
/// around.
#[test]
fn verdicts_wander_where_margins_rest() {
    let mut few = [0; 16];
    for seed in 0..120 {
        let words = rounds::wandering_verdicts(&mut Random::new(seed), 64);
        let left = judged_by::<Fast>(&Case::of(&words, plenty(7, 33, 64)));
        let answer = left.whole_answer().expect("a whole answer");
        let code = codes(&words)[5];
        let (places, line) = (answer.places, &answer.lines[5]);
        let noes = line.verdicts.iter().filter(|verdict| **verdict == no(0)).count();
        let ends = if code == 7 { line.verdicts.len() / places } else { 0 };
        assert_eq!(noes, line.verdicts.len() - ends, "seed {seed}");
        assert!(line.verdicts.iter().all(|verdict| !verdict.yes), "seed {seed}");
        few[code as usize] += u32::from(places > 8 && outcome(&left).rounds < 5);
    }
    assert!(few[7] > 2 && few[15] > 10, "{few:?}");
}

/// A surround without islands is often followed by the same with islands.
#[test]
fn both_readings_of_a_surround_stand_side_by_side() {
    let mut pairs = 0;
    for seed in 0..1000 {
        let words = valid::sheet(&mut Random::new(seed), 8);
        let sheet = check(&words, ENOUGH_DISTANCES).expect("a valid sheet");
        let same = |pair: &&[Line]| match [pair[0].operator, pair[1].operator] {
            [Operator::Surround { left, right, bounds }, other] => {
                other == Operator::SurroundOrIsland { left, right, bounds }
            }
            _ => false,
        };
        pairs += sheet.lines.windows(2).filter(same).count();
    }
    assert!(pairs > 100, "{pairs}");
}

/// Where a surround stands without islands and with them, they often differ, also
/// in the verdict alone, and often do not.
#[test]
fn islands_matter() {
    let (mut apart, mut verdicts_apart, mut same, mut no_rounds) = (0, 0, 0, 0);
    for seed in 0..1000 {
        let words = islands::sheet(&mut Random::new(seed), 64);
        let left = judged_by::<Fast>(&Case::of(&words, plenty(8, 3, 8)));
        let lines = left.whole_answer().expect("a whole answer").lines;
        no_rounds += u32::from(codes(&words)[6..] == [7] && outcome(&left).rounds == 0);
        if let [without, with] = &lines[6..] {
            let mut pairs = without.verdicts.iter().zip(&with.verdicts);
            apart += u32::from(pairs.clone().any(|(one, other)| one.margin != other.margin));
            same += u32::from(pairs.clone().any(|(one, other)| one == other));
            verdicts_apart += u32::from(
                pairs.any(|(one, other)| one.margin == other.margin && one.yes != other.yes),
            );
        }
    }
    let counts = [apart, verdicts_apart, same, no_rounds];
    assert!(counts.iter().all(|&count| count > 4), "{counts:?}");
}

/// Windows are read both ways, and margins of 0 often have both verdicts.
#[test]
fn windows_have_ties() {
    let (mut used, mut yeses, mut noes) = ([0; 16], 0, 0);
    for seed in 0..300 {
        let words = windows::sheet(&mut Random::new(seed), 64);
        let left = judged_by::<Fast>(&Case::of(&words, plenty(10, 8, 3)));
        for (line, code) in
            left.whole_answer().expect("a whole answer").lines.iter().zip(codes(&words))
        {
            used[code as usize] += 1;
            let is_window = matches!(code, 5 | 12);
            yeses += u32::from(is_window && line.verdicts.contains(&yes(0)));
            noes += u32::from(is_window && line.verdicts.contains(&no(0)));
        }
    }
    let counts = [used[5], used[12], yeses, noes];
    assert!(counts.iter().all(|&count| count > 50), "{counts:?}");
}

#[test]
fn answers_have_the_words_asked_for() {
    for answer_words in [16_000, 16_383, 16_384, 16_385, 16_400] {
        let words = limits::sheet_of_answer(&mut Random::new(1), answer_words);
        let exact = judged_by::<Fast>(&Case::of(&words, answer_words));
        assert_eq!(outcome(&exact).words, answer_words as u64);
        let short = judged_by::<Fast>(&Case::of(&words, answer_words - 1));
        assert_eq!(short.number, 15);
    }
}

#[test]
fn sheets_have_the_words_asked_for() {
    for seed in 0..60 {
        for words in [300, 301, 302, 8_191, 8_192, 8_193, 8_200] {
            let sheet = limits::sheet_of_words(&mut Random::new(seed), words);
            assert_eq!(sheet.len(), words);
            assert_eq!(judged_by::<Fast>(&Case::of(&sheet, 16_384)).number, 0);
        }
    }
}

#[test]
fn invented_answers_are_whole() {
    for seed in 0..100 {
        let words = answers::invented(&mut Random::new(seed));
        assert!(Answer::read(&words).is_some(), "seed {seed}");
    }
}

#[test]
fn a_resumed_sheet_goes_on_before_its_end() {
    let words = reference::builder::SheetBuilder::resume(&EXAMPLE_A).end();
    assert_eq!(words, EXAMPLE_A);
}
