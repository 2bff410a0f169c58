//! Engines that take a yes away or lower a margin where samples rise, or raise it
//! too much. Raised samples alone find them, with nothing to compare with.

use super::evaluator::{self, greater, not, Trapped};
use super::traps::difference_alone;
use super::{caught_within, over, SEEDS_OF_RIGHT};
use crate::{raising, Engine};
use reference::distance::Distances;
use reference::evaluation::Evaluation;
use reference::fast::Fast;
use reference::margin::{Margin, Verdict};
use reference::sheet::{Line, Operator, Sheet};

/// The faults.
const NONE: u32 = 0;
const OUTER_NOT_FORGOTTEN: u32 = 1;
const INNER_NOT_FORGOTTEN: u32 = 2;
const HIGH_IS_NO: u32 = 3;
const ZERO_BY_LEFT: u32 = 4;
const HIGH_IS_INFINITE: u32 = 5;

/// The codes that negate twice: or, always, everywhere, historically.
const OR: u32 = 8;
const ALWAYS: u32 = 10;
const EVERYWHERE: u32 = 11;
const HISTORICALLY: u32 = 14;

const AND: u32 = 4;
const AT_LEAST: u32 = 1;

/// What a margin is high from.
const HIGH: Margin = Margin::Finite(1 << 20);

/// Right, but for the lines of one code, of which it says something else.
struct Missaid<const CODE: u32, const FAULT: u32> {
    right: Fast,
    lines: Vec<Line>,
}

impl<const CODE: u32, const FAULT: u32> Evaluation for Missaid<CODE, FAULT> {
    fn evaluate(sheet: &Sheet, distances: &Distances) -> Self {
        Missaid { right: Fast::evaluate(sheet, distances), lines: sheet.lines.clone() }
    }

    fn verdict(&self, line: usize, sample: usize, place: usize) -> Verdict {
        let said = self.right.verdict(line, sample, place);
        let operator = self.lines[line].operator;
        if operator.code() != CODE {
            return said;
        }
        let is_high = said.margin >= HIGH;
        let of = |line: usize| self.right.verdict(line, sample, place);
        match (FAULT, operator) {
            (OUTER_NOT_FORGOTTEN, _) => not(said),
            (INNER_NOT_FORGOTTEN, Operator::Or { left, right }) => {
                greater(of(left), not(of(right)))
            }
            (HIGH_IS_NO, _) if is_high => Verdict { yes: false, margin: Margin::Finite(0) },
            (HIGH_IS_INFINITE, _) if is_high => evaluator::TOP,
            (ZERO_BY_LEFT, Operator::And { left, .. }) if said.margin == Margin::Finite(0) => {
                Verdict { yes: of(left).margin == said.margin, ..said }
            }
            _ => said,
        }
    }

    fn rounds(&self) -> u64 {
        self.right.rounds()
    }
}

/// Right, but for samples, of which it has so many bits, the highest for the sign.
struct Narrow<const BITS: u32>(Fast);

impl<const BITS: u32> Evaluation for Narrow<BITS> {
    fn evaluate(sheet: &Sheet, distances: &Distances) -> Self {
        let cut = |number: &i32| number << (32 - BITS) >> (32 - BITS);
        let readings = sheet.readings.iter().map(cut).collect();
        Narrow(Fast::evaluate(&Sheet { readings, ..sheet.clone() }, distances))
    }

    fn verdict(&self, line: usize, sample: usize, place: usize) -> Verdict {
        self.0.verdict(line, sample, place)
    }

    fn rounds(&self) -> u64 {
        self.0.rounds()
    }
}

/// What raised samples alone find must be this, and told with both sheets: then an
/// engine is caught by what is demanded of the two answers, and not for an answer
/// that is none.
#[track_caller]
fn assert_found(engine: &dyn Engine, demands: &[&str]) {
    let difference = difference_alone(engine, raising::check).expect("a difference");
    let told = &difference.what;
    assert!(demands.iter().any(|demand| told.starts_with(demand)), "{told}");
    assert_eq!(difference.found_on.len(), 2);
}

/// Where a verdict falls, the margin does too, and the one or the other is told.
const FALLS: [&str; 2] = [LOST, "a margin fell"];
const LOST: &str = "a yes was lost";
const NOT_STEADY: &str = "not steady";

#[test]
fn nothing_is_found_in_what_is_right() {
    let is_right = |engine: &dyn Engine| difference_alone(engine, raising::check).is_none();
    assert!(is_right(&Trapped::<{ evaluator::NONE }>));
    assert!(is_right(&over::<Missaid<OR, NONE>>()));
    assert!(is_right(&over::<Narrow<27>>()));
    assert_eq!(caught_within(&over::<Missaid<OR, NONE>>(), SEEDS_OF_RIGHT), None);
    assert_eq!(caught_within(&over::<Narrow<27>>(), SEEDS_OF_RIGHT), None);
}

/// Or is "not left and not right", always "eventually not left", everywhere
/// "somewhere not left", historically "once not left".
#[test]
fn a_dual_without_its_outer_not() {
    assert_found(&over::<Missaid<OR, OUTER_NOT_FORGOTTEN>>(), &FALLS);
    assert_found(&over::<Missaid<ALWAYS, OUTER_NOT_FORGOTTEN>>(), &FALLS);
    assert_found(&over::<Missaid<EVERYWHERE, OUTER_NOT_FORGOTTEN>>(), &FALLS);
    assert_found(&over::<Missaid<HISTORICALLY, OUTER_NOT_FORGOTTEN>>(), &FALLS);
}

/// Or is "not (not left and right)".
#[test]
fn or_without_its_inner_not() {
    assert_found(&over::<Missaid<OR, INNER_NOT_FORGOTTEN>>(), &FALLS);
}

/// The boundary must have right and must not have left.
#[test]
fn a_boundary_that_must_not_have_left() {
    assert_found(&Trapped::<{ evaluator::BOUNDARY_WITHOUT_LEFT }>, &FALLS);
}

/// A high sample wraps and is a low one.
#[test]
fn samples_of_fewer_bits() {
    assert_found(&over::<Narrow<24>>(), &FALLS);
    assert_found(&over::<Narrow<26>>(), &FALLS);
}

#[test]
fn a_high_margin_said_to_be_no() {
    assert_found(&over::<Missaid<AT_LEAST, HIGH_IS_NO>>(), &FALLS);
}

/// Every margin is right: the verdicts alone fall, where right comes to decide.
#[test]
fn a_yes_at_margin_0_for_left_alone() {
    assert_found(&over::<Missaid<AND, ZERO_BY_LEFT>>(), &[LOST]);
}

/// Nothing falls, but raised samples make infinities.
#[test]
fn a_high_margin_said_to_be_infinite() {
    assert_found(&over::<Missaid<AT_LEAST, HIGH_IS_INFINITE>>(), &[NOT_STEADY]);
}
