//! The Boolean semantics, Definition 3.1: verdicts from the operands' verdicts.

use super::regions::Region;
use super::{quantitative, Point, World};
use crate::margin::Margin;
use crate::sheet::{Bounds, Operator};

/// Whether a formula holds at a point. "Other verdicts come from the operands'
/// verdicts, not from margins: minimum becomes 'all', maximum 'some'."
pub(super) fn holds(world: &World, operator: &Operator, point: &Point) -> bool {
    let &Point { sample, place, .. } = point;
    let here = |line: usize| world.yes(line, sample, place);
    let then = |line: usize| move |time: usize| world.yes(line, time, place);
    let there = |line: usize| move |other: usize| world.yes(line, sample, other);
    match *operator {
        Operator::True => true,
        Operator::AtLeast { .. } | Operator::AtMost { .. } => {
            quantitative::margin(world, operator, point) >= Margin::Finite(0)
        }
        Operator::Not { left } => !here(left),
        Operator::And { left, right } => here(left) && here(right),
        Operator::Until { left, right, bounds } => until(sample, bounds, then(left), then(right)),
        Operator::Somewhere { left, bounds } => somewhere(world, place, bounds, there(left)),
        Operator::Surround { left, right, .. } | Operator::SurroundOrIsland { left, right, .. } => {
            surround(point.regions, there(left), there(right))
        }
        Operator::Or { left, right } => !(!here(left) && !here(right)),
        Operator::Eventually { left, bounds } => until(sample, bounds, |_| true, then(left)),
        Operator::Always { left, bounds } => {
            !until(sample, bounds, |_| true, |time| !then(left)(time))
        }
        Operator::Everywhere { left, bounds } => {
            !somewhere(world, place, bounds, |other| !there(left)(other))
        }
        Operator::Since { left, right, bounds } => since(sample, bounds, then(left), then(right)),
        Operator::Once { left, bounds } => since(sample, bounds, |_| true, then(left)),
        Operator::Historically { left, bounds } => {
            !since(sample, bounds, |_| true, |time| !then(left)(time))
        }
    }
}

/// "Some t' from t + lower to t + upper has right at t' and left at every
/// sample from t to t', t' included."
pub fn until(
    from: usize,
    bounds: Bounds,
    left: impl Fn(usize) -> bool,
    right: impl Fn(usize) -> bool,
) -> bool {
    let mut window = from + bounds.lower as usize..=from + bounds.upper as usize;
    window.any(|time| right(time) && (from..=time).all(&left))
}

/// "Right holds at some t' from t - upper to t - lower and left holds from t' to
/// t, t' included."
pub fn since(
    at: usize,
    bounds: Bounds,
    left: impl Fn(usize) -> bool,
    right: impl Fn(usize) -> bool,
) -> bool {
    let mut window = at - bounds.upper as usize..=at - bounds.lower as usize;
    window.any(|time| right(time) && (time..=at).all(&left))
}

/// Some place within the bounds has it.
fn somewhere(world: &World, centre: usize, bounds: Bounds, left: impl Fn(usize) -> bool) -> bool {
    world.range(centre, bounds).any(left)
}

/// Some allowed region has "left on all of A, right on all that outer
/// boundary".
fn surround(
    regions: &[Region],
    left: impl Fn(usize) -> bool,
    right: impl Fn(usize) -> bool,
) -> bool {
    let mut regions = regions.iter();
    regions.any(|region| region.members().all(&left) && region.boundary().all(&right))
}
