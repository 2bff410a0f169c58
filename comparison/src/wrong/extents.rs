//! Engines that reckon wrongly where a line begins or ends. Where that makes them
//! look beside what an operand has, they take the nearest sample.

use super::evaluator::{Faulty, NONE};
use super::{caught, caught_within, SEEDS_OF_RIGHT};
use crate::{mirror, Engine, Filled, Implementation};
use reference::answer;
use reference::distance::Distances;
use reference::evaluation::Evaluation;
use reference::generate::random::Random;
use reference::judge::Outcome;
use reference::layout::ENOUGH_DISTANCES;
use reference::sheet::{check, Extent, Operator, Reach, Sheet};
use reference::words::{self, BYTES_PER_WORD};

/// The extent of a line whose operands have these.
type Reckoning = fn(&Operator, &[Extent]) -> Extent;

struct Reckoned(Reckoning);

impl Reckoned {
    /// The sheet with the extents of all lines reckoned anew.
    fn sheet(&self, words: &[u32]) -> Option<Sheet> {
        let mut sheet = check(words, ENOUGH_DISTANCES).ok()?;
        for line in 0..sheet.lines.len() {
            let operator = sheet.lines[line].operator;
            let operands = operator.operands().into_iter().flatten();
            let extents: Vec<Extent> = operands.map(|line| sheet.lines[line].extent).collect();
            if !extents.is_empty() {
                sheet.lines[line].extent = (self.0)(&operator, &extents);
            }
        }
        Some(sheet)
    }
}

impl Engine for Reckoned {
    fn judge(&self, sheet: &[u8], left: Filled) -> u64 {
        let Filled { distances, answer, result } = left;
        let lent = Filled { distances, answer: &mut *answer, result: &mut *result };
        let number = Implementation.judge(sheet, lent);
        let words = words::from_bytes(sheet).filter(|_| number == 0);
        let Some(sheet) = words.and_then(|words| self.sheet(&words)) else {
            return number;
        };
        let words = answer::needed(&sheet);
        let is_there = sheet.lines.iter().all(|line| !line.extent.is_empty());
        if is_there && words <= answer.len() / BYTES_PER_WORD {
            let distances = Distances::new(sheet.head.places, &sheet.roads);
            let evaluation = Faulty::<NONE>::evaluate(&sheet, &distances);
            answer.fill(0);
            let yes = answer::write(&sheet, &evaluation, answer);
            let rounds = evaluation.rounds();
            let outcome = Outcome { words: words as u64, rounds, yes, ..Outcome::default() };
            result.copy_from_slice(&outcome.to_bytes());
        }
        number
    }

    fn lookup(&self, answer: &[u8], line: u64, sample: u64, place: u64) -> u64 {
        Implementation.lookup(answer, line, sample, place)
    }
}

/// What operands have in common, shorter by an upper bound of time.
fn right(operator: &Operator, operands: &[Extent]) -> Extent {
    bounded(operator, common(operands))
}

fn common(operands: &[Extent]) -> Extent {
    operands.iter().copied().reduce(Extent::common).unwrap_or(Extent::whole(0))
}

fn bounded(operator: &Operator, common: Extent) -> Extent {
    match operator.reach() {
        Reach::Here => common,
        Reach::Ahead(upper) => common.ends_sooner(upper),
        Reach::Back(upper) => common.begins_later(upper),
    }
}

#[test]
fn rightly_reckoned_nothing_is_found() {
    assert_eq!(caught_within(&Reckoned(right), SEEDS_OF_RIGHT), None);
}

/// Clipping: since has verdicts below its upper bound, by what is recorded.
#[test]
fn windows_clipped_at_the_start() {
    let reckoning: Reckoning = |operator, operands| match operator.reach() {
        Reach::Back(_) => common(operands),
        _ => right(operator, operands),
    };
    assert!(caught(&Reckoned(reckoning)).is_some());
}

#[test]
fn a_first_sample_not_raised_by_the_upper_bound() {
    let reckoning: Reckoning = |operator, operands| match operator.reach() {
        Reach::Back(upper) => common(operands).ends_sooner(upper),
        _ => right(operator, operands),
    };
    assert!(caught(&Reckoned(reckoning)).is_some());
}

#[test]
fn a_first_sample_raised_by_the_lower_bound() {
    let reckoning: Reckoning = |operator, operands| match (operator.reach(), operator.bounds()) {
        (Reach::Back(_), Some(bounds)) => common(operands).begins_later(bounds.lower),
        _ => right(operator, operands),
    };
    assert!(caught(&Reckoned(reckoning)).is_some());
}

#[test]
fn lengths_compared_without_first_samples() {
    let reckoning: Reckoning = |operator, operands| {
        let first = common(operands).first;
        let length = operands.iter().map(|extent| extent.length()).min().unwrap_or(0);
        bounded(operator, Extent { first, end: first + length })
    };
    assert!(caught(&Reckoned(reckoning)).is_some());
}

#[test]
fn only_the_left_operands_first_sample_counted() {
    let reckoning: Reckoning = |operator, operands| {
        let Extent { end, .. } = common(operands);
        bounded(operator, Extent { first: operands[0].first, end })
    };
    assert!(caught(&Reckoned(reckoning)).is_some());
}

#[test]
fn the_earlier_first_sample_counted() {
    let reckoning: Reckoning = |operator, operands| {
        let first = operands.iter().map(|extent| extent.first).min().unwrap_or(0);
        bounded(operator, Extent { first, ..common(operands) })
    };
    assert!(caught(&Reckoned(reckoning)).is_some());
}

/// Looking ahead is shortened at both ends, as looking back would be.
#[test]
fn looking_ahead_that_begins_later() {
    let reckoning: Reckoning = |operator, operands| match operator.reach() {
        Reach::Ahead(upper) => common(operands).begins_later(upper),
        _ => right(operator, operands),
    };
    assert!(caught(&Reckoned(reckoning)).is_some());
}

/// Time turned round finds it with nothing to compare with.
#[test]
fn clipped_windows_are_not_mirrored() {
    let reckoning: Reckoning = |operator, operands| match operator.reach() {
        Reach::Back(_) => common(operands),
        _ => right(operator, operands),
    };
    let (mut random, mut reached) = (Random::new(1), Default::default());
    let engine = Reckoned(reckoning);
    let found = (0..1_000).find_map(|_| mirror::check(&engine, &mut random, &mut reached).err());
    assert!(found.is_some());
}
