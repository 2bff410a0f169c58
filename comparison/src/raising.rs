//! More bikes, no fewer yeses, on the engine: of two sheets alike in every word but
//! their samples, whose table has neither code 2 nor code 3, the one that has no
//! lower sample has every yes of the other and no lower margin.
//!
//! The two codes have to be left out: on tables with either of them raised samples
//! must be seen to take a yes away and to lower a margin.

mod drawn;
mod shown;

pub use drawn::sheet_that_rises;
pub use shown::labels;

use crate::alike::Alike;
use crate::difference::Checked;
use crate::reached::Reached;
use crate::{steadiness, Engine};
use reference::generate::random::Random;
use reference::words;

/// The codes that may fall where samples rise: at most, and not.
const FALLING: [u32; 2] = [2, 3];

/// Judges a random sheet and another with samples raised. Mostly the table has none
/// of the codes that may fall, and now and then it has one of the two.
pub fn check(engine: &dyn Engine, random: &mut Random, reached: &mut Reached) -> Checked {
    let sheets = drawn::sheets(random);
    let alike = Alike::judged(engine, random, sheets)?;
    let codes = words::line_codes(&alike.sheets[0]);
    reached.count_layout("raising", &alike.sheets[0]);
    match FALLING.into_iter().find(|code| codes.contains(code)) {
        None => {
            demanded(&alike)?;
            steadiness::demanded(&alike)?;
            shown::count(&alike, reached);
        }
        Some(code) => {
            steadiness::demanded(&alike)?;
            shown::count_falls(&alike, code, reached);
        }
    }
    Ok(())
}

/// Demands that nothing fell from X to Y: every yes of X is a yes of Y, no margin of
/// Y is lower, and so the yes count is no lower either.
pub fn demanded(alike: &Alike) -> Checked {
    alike.demand_at_all("a yes was lost", |point| point.y.yes || !point.x.yes)?;
    alike.demand_at_all("a margin fell", |point| point.x.margin <= point.y.margin)?;
    let [x, y] = alike.said.each_ref().map(|said| said.outcome.yes);
    alike.demand(x <= y, || format!("the yes count fell from {x} to {y}"))
}

#[cfg(test)]
mod tests {
    use super::*;
    use crate::alike::with_samples;
    use crate::{Definitions, Implementation};
    use reference::margin::Margin::Finite;
    use reference::margin::Verdict;
    use reference::worked::{AFTER_RAISING, BEFORE_RAISING};

    /// One place, one sample of 0: line 0 is at most 0.
    const AT_MOST: [u32; 5] = [0x10101001, 0x40000000, 0x50200000, 0x80000000, 0xF0000004];

    /// The same sample: line 0 is at least 1, line 1 is not line 0.
    const NOT: [u32; 6] = [0x10101001, 0x40000000, 0x50100000, 0x80000001, 0x50300000, 0xF0000005];

    /// The same sample: line 0 is at least 1.
    const AT_LEAST: [u32; 5] = [0x10101001, 0x40000000, 0x50100000, 0x80000001, 0xF0000004];

    /// A sheet and the same with its samples raised by 1.
    fn raised_by_1(engine: &dyn Engine, words: &[u32]) -> Alike {
        let raised = with_samples(words, |_, number| number + 1);
        Alike::judged(engine, &mut Random::new(1), [words.to_vec(), raised]).expect("answers")
    }

    /// What is said to both sheets, line by line.
    fn said(alike: &Alike) -> Vec<[Verdict; 2]> {
        alike.points().map(|point| [point.x, point.y]).collect()
    }

    fn yes(number: i64) -> Verdict {
        Verdict { yes: true, margin: Finite(number) }
    }

    fn no(number: i64) -> Verdict {
        Verdict { yes: false, margin: Finite(number) }
    }

    /// Why a pair breaks the demand.
    fn broken(alike: &Alike) -> String {
        demanded(alike).expect_err("something fell").what
    }

    #[test]
    fn at_most_falls() {
        for engine in [&Implementation as &dyn Engine, &Definitions] {
            let alike = raised_by_1(engine, &AT_MOST);
            assert_eq!(said(&alike), [[yes(0), no(-1)]]);
            assert!(broken(&alike).starts_with("a yes was lost"));
            assert!(steadiness::demanded(&alike).is_ok());
        }
    }

    #[test]
    fn not_falls() {
        for engine in [&Implementation as &dyn Engine, &Definitions] {
            let alike = raised_by_1(engine, &NOT);
            assert_eq!(said(&alike), [[no(-1), yes(0)], [yes(1), no(0)]]);
            assert!(broken(&alike).starts_with("a yes was lost"));
            assert!(steadiness::demanded(&alike).is_ok());
        }
    }

    #[test]
    fn at_least_rises() {
        let alike = raised_by_1(&Implementation, &AT_LEAST);
        assert_eq!(said(&alike), [[no(-1), yes(0)]]);
        assert!(demanded(&alike).is_ok());
    }

    /// Six verdicts turn, and margins rise by as much as the two samples at the most.
    #[test]
    fn the_worked_pair_rises() {
        let sheets = [BEFORE_RAISING.to_vec(), AFTER_RAISING.to_vec()];
        let alike = Alike::judged(&Implementation, &mut Random::new(1), sheets).expect("answers");
        assert!(demanded(&alike).is_ok() && steadiness::demanded(&alike).is_ok());
        assert_eq!(alike.points().filter(|point| !point.x.yes && point.y.yes).count(), 6);
        assert_eq!(alike.apart(), 2);
    }

    /// Each part of the demand is broken alone.
    #[test]
    fn verdicts_margins_and_yes_count_are_demanded_each() {
        let broken_by = |verdicts: [Verdict; 2], yes_counts: [u64; 2]| {
            let mut alike = raised_by_1(&Implementation, &AT_LEAST);
            for (said, (verdict, yes)) in
                alike.said.iter_mut().zip(verdicts.into_iter().zip(yes_counts))
            {
                said.answer.lines[0].verdicts[0] = verdict;
                said.outcome.yes = yes;
            }
            broken(&alike)
        };
        assert!(broken_by([yes(0), no(0)], [1, 1]).starts_with("a yes was lost"));
        assert!(broken_by([yes(5), yes(4)], [1, 1]).starts_with("a margin fell"));
        assert!(broken_by([yes(5), yes(5)], [1, 0]).starts_with("the yes count fell"));
    }
}
