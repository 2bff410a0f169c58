//! Pairs of sheets, the second with samples raised.

use super::FALLING;
use crate::alike::{samples, with_samples};
use reference::generate::random::Random;
use reference::generate::valid;
use reference::layout::ENOUGH_DISTANCES;
use reference::sheet::{check, Operator, Sheet};
use reference::words::{self, kinds};

/// Of so many pairs one has a table that keeps its lines of code 2, and one a table
/// that keeps those of code 3. All others have neither.
const KEEP_EVERY: usize = 8;

/// By how much a sample is raised, from and to: by little, by anything, and to the
/// greatest sample, since what would be beyond is cut to that.
const RAISES: [(i64, i64); 7] = [(0, 1), (0, 2), (1, 1), (1, 2), (2, 2), (0, FAR), (FAR, FAR)];

/// From every sample to beyond the greatest.
const FAR: i64 = 1 << 27;

/// Which samples are raised.
#[derive(Clone, Copy)]
enum Which {
    Nothing,
    One,
    Many,
    All,
}

/// A random sheet, and the same with samples raised.
pub fn sheets(random: &mut Random) -> [Vec<u32>; 2] {
    let words = valid::sheet_or_city(random, 16);
    let kept = FALLING.get(random.below(KEEP_EVERY)).copied();
    let x = about_to_turn(random, &words, kept);
    let y = raised(random, &x);
    [x, y]
}

/// A random sheet without lines of the codes that may fall.
pub fn sheet_that_rises(random: &mut Random) -> Vec<u32> {
    let words = valid::sheet_or_city(random, 16);
    about_to_turn(random, &words, None)
}

/// A valid sheet without lines of the codes that may fall, but for the one that is kept,
/// and mostly with samples that need little to turn a verdict.
fn about_to_turn(random: &mut Random, words: &[u32], kept: Option<u32>) -> Vec<u32> {
    let words = keeping(random, words, kept);
    if random.chance(60) {
        below_constants(random, &words)
    } else {
        words
    }
}

/// A valid sheet without lines of the codes that may fall, but for the one that is
/// kept: what is at most a constant becomes at least it, and a line that negates
/// another joins it to line 0.
///
/// No word more is needed: the right field of such a line is unused and so is 0. It
/// stays valid and keeps its samples, since line 0 is an earlier line and, having no
/// operands, has verdicts for the whole recording.
fn keeping(random: &mut Random, words: &[u32], kept: Option<u32>) -> Vec<u32> {
    let replaced = |&word: &u32| {
        let code = words::field(word, 27, 20);
        if words::kind(word) != kinds::LINE || kept == Some(code) {
            return word;
        }
        match code {
            2 => words::with_code(word, 1),
            3 => words::with_code(word, random.pick(&[4, 8])),
            _ => word,
        }
    };
    words.iter().map(replaced).collect()
}

/// A valid sheet whose samples lie just below constants that they are compared
/// with, or equal them, so that little makes a no a yes.
fn below_constants(random: &mut Random, words: &[u32]) -> Vec<u32> {
    let sheet = check(words, ENOUGH_DISTANCES).expect("a valid sheet");
    let constants = constants(&sheet);
    with_samples(words, |at, number| match &constants[at % sheet.head.signals][..] {
        [] => number,
        of_signal => random.pick(of_signal) - random.pick(&[0, 1, 1, 1, 2]),
    })
}

/// For each signal the constants that it is compared with.
fn constants(sheet: &Sheet) -> Vec<Vec<i64>> {
    let mut constants = vec![Vec::new(); sheet.head.signals];
    for line in &sheet.lines {
        if let Operator::AtLeast { signal, constant } | Operator::AtMost { signal, constant } =
            line.operator
        {
            constants[signal].push(constant.into());
        }
    }
    constants
}

/// A valid sheet with samples raised: none of them, one, some or all.
fn raised(random: &mut Random, words: &[u32]) -> Vec<u32> {
    let which = random.pick(&[Which::Nothing, Which::One, Which::Many, Which::Many, Which::All]);
    let (from, to) = random.pick(&RAISES);
    let one = random.below(samples(words).count());
    with_samples(words, |at, number| {
        let is_raised = match which {
            Which::Nothing => false,
            Which::One => at == one,
            Which::Many => random.chance(40),
            Which::All => true,
        };
        if is_raised {
            number + random.between(from, to)
        } else {
            number
        }
    })
}

#[cfg(test)]
mod tests {
    use super::*;
    use reference::builder::SheetBuilder;

    fn recorded(numbers: [i32; 4]) -> SheetBuilder {
        SheetBuilder::new(1, 2, 2).samples(&numbers)
    }

    fn table(sheet: SheetBuilder) -> Vec<u32> {
        sheet.at_least(0, 5).at_most(0, 9).bounded(9, 1, 0, (0, 1)).line(3, 2, 0).end()
    }

    /// Only code and nothing else of a line is replaced.
    #[test]
    fn codes_that_may_fall_are_replaced() {
        let words = table(recorded([1, 2, 3, 4]));
        let codes = |kept| words::line_codes(&keeping(&mut Random::new(1), &words, kept));
        let joins = |code: u32| [4, 8].contains(&code);
        assert!(matches!(codes(None)[..], [1, 1, 9, code] if joins(code)));
        assert!(matches!(codes(Some(2))[..], [1, 2, 9, code] if joins(code)));
        assert_eq!(codes(Some(3)), [1, 1, 9, 3]);
        let code_alone = |word: &u32| words::with_code(*word, 0);
        let replaced = keeping(&mut Random::new(1), &words, None);
        assert!(replaced.iter().map(code_alone).eq(words.iter().map(code_alone)));
    }

    /// Signal 0 is compared with 5 and 9, signal 1 with nothing.
    #[test]
    fn samples_come_to_lie_just_below_constants() {
        let words = below_constants(&mut Random::new(1), &table(recorded([100, 200, 300, 400])));
        let samples: Vec<i64> = samples(&words).collect();
        let is_near = |sample: i64| (3..=5).contains(&sample) || (7..=9).contains(&sample);
        assert!(is_near(samples[0]) && is_near(samples[2]));
        assert_eq!([samples[1], samples[3]], [200, 400]);
    }

    /// What is drawn stays valid, has its two tables alike, and no lower sample.
    #[test]
    fn sheets_stay_valid_and_no_sample_falls() {
        let mut random = Random::new(1);
        for _ in 0..500 {
            let [x, y] = sheets(&mut random);
            assert_eq!(check(&x, ENOUGH_DISTANCES).err(), None);
            assert_eq!(with_samples(&x, |_, _| 0), with_samples(&y, |_, _| 0));
            assert!(samples(&x).zip(samples(&y)).all(|(x, y)| x <= y));
        }
    }
}
