//! Engines that fall into a trap of the logic.

use super::evaluator::{self, Trapped};
use super::{caught, caught_within, SEEDS_OF_RIGHT};
use crate::difference::{Checked, Difference};
use crate::reached::Reached;
use crate::{laws, mirror, Engine};
use reference::generate::random::Random;

#[test]
fn without_a_fault_nothing_is_found() {
    assert_eq!(caught_within(&Trapped::<{ evaluator::NONE }>, SEEDS_OF_RIGHT), None);
}

#[test]
fn verdict_by_the_sign_of_the_margin() {
    assert!(caught(&Trapped::<{ evaluator::SIGN }>).is_some());
}

#[test]
fn first_round_shown_as_the_limit() {
    assert!(caught(&Trapped::<{ evaluator::ONE_ROUND }>).is_some());
}

#[test]
fn places_stepping_on_values_of_the_present_round() {
    assert!(caught(&Trapped::<{ evaluator::IN_PLACE }>).is_some());
}

#[test]
fn right_masked_by_the_upper_bound_alone() {
    assert!(caught(&Trapped::<{ evaluator::UPPER_MASK }>).is_some());
}

#[test]
fn windows_ahead_without_their_last_sample() {
    assert!(caught(&Trapped::<{ evaluator::AHEAD_CLIPPED }>).is_some());
}

#[test]
fn windows_back_without_their_first_sample() {
    assert!(caught(&Trapped::<{ evaluator::BACK_CLIPPED }>).is_some());
}

#[test]
fn since_with_left_from_the_upper_bound_on() {
    assert!(caught(&Trapped::<{ evaluator::LEFT_OF_WHOLE_WINDOW }>).is_some());
}

#[test]
fn since_without_left_at_the_time_of_right() {
    assert!(caught(&Trapped::<{ evaluator::LEFT_AFTER_RIGHT }>).is_some());
}

#[test]
fn since_without_left_at_the_present() {
    assert!(caught(&Trapped::<{ evaluator::LEFT_BEFORE_NOW }>).is_some());
}

#[test]
fn operands_read_from_their_own_first_sample() {
    assert!(caught(&Trapped::<{ evaluator::OWN_FIRST }>).is_some());
}

/// Within how many sheets such a check has to find something.
pub const DRAWS: usize = 2_500;

/// A check that has nothing to compare an engine with.
pub type Alone = fn(&dyn Engine, &mut Random, &mut Reached) -> Checked;

/// What such a check finds.
pub fn difference_alone(engine: &dyn Engine, check: Alone) -> Option<Difference> {
    let (mut random, mut reached) = (Random::new(1), Reached::default());
    (0..DRAWS).find_map(|_| check(engine, &mut random, &mut reached).err())
}

/// On how many sheets it finds it.
pub fn found_alone(engine: &dyn Engine, check: Alone) -> Option<usize> {
    difference_alone(engine, check).map(|difference| difference.found_on.len())
}

/// The laws alone find them too, and tell the sheet.
#[test]
fn faults_that_break_a_law() {
    assert_eq!(found_alone(&Trapped::<{ evaluator::NONE }>, laws::check), None);
    assert_eq!(found_alone(&Trapped::<{ evaluator::AHEAD_CLIPPED }>, laws::check), Some(1));
    assert_eq!(found_alone(&Trapped::<{ evaluator::BACK_CLIPPED }>, laws::check), Some(1));
    assert_eq!(found_alone(&Trapped::<{ evaluator::LEFT_OF_WHOLE_WINDOW }>, laws::check), Some(1));
    assert_eq!(found_alone(&Trapped::<{ evaluator::LEFT_AFTER_RIGHT }>, laws::check), Some(1));
    assert_eq!(found_alone(&Trapped::<{ evaluator::LEFT_BEFORE_NOW }>, laws::check), Some(1));
    assert_eq!(found_alone(&Trapped::<{ evaluator::OWN_FIRST }>, laws::check), Some(1));
}

/// Time turned round finds whatever goes wrong one way only, and tells both
/// sheets.
#[test]
fn faults_that_go_one_way_only() {
    assert_eq!(found_alone(&Trapped::<{ evaluator::NONE }>, mirror::check), None);
    assert_eq!(found_alone(&Trapped::<{ evaluator::AHEAD_CLIPPED }>, mirror::check), Some(2));
    assert_eq!(found_alone(&Trapped::<{ evaluator::BACK_CLIPPED }>, mirror::check), Some(2));
    assert_eq!(
        found_alone(&Trapped::<{ evaluator::LEFT_OF_WHOLE_WINDOW }>, mirror::check),
        Some(2)
    );
    assert_eq!(found_alone(&Trapped::<{ evaluator::LEFT_AFTER_RIGHT }>, mirror::check), Some(2));
    assert_eq!(found_alone(&Trapped::<{ evaluator::LEFT_BEFORE_NOW }>, mirror::check), Some(2));
    assert_eq!(found_alone(&Trapped::<{ evaluator::OWN_FIRST }>, mirror::check), Some(2));
}
