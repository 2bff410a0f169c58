//! The quantitative semantics, Definition 3.4: margins from the operands'
//! margins.

use super::regions::Region;
use super::{Point, World};
use crate::margin::Margin;
use crate::sheet::{Bounds, Operator};

/// The margin of a formula at a point.
pub(super) fn margin(world: &World, operator: &Operator, point: &Point) -> Margin {
    let &Point { sample, place, .. } = point;
    let here = |line: usize| world.margin(line, sample, place);
    let then = |line: usize| move |time: usize| world.margin(line, time, place);
    let there = |line: usize| move |other: usize| world.margin(line, sample, other);
    let always = |_| Margin::PlusInfinity;
    match *operator {
        Operator::True => Margin::PlusInfinity,
        Operator::AtLeast { signal, constant } => {
            difference(reading(world, point, signal), constant)
        }
        Operator::AtMost { signal, constant } => {
            difference(constant, reading(world, point, signal))
        }
        Operator::Not { left } => here(left).negate(),
        Operator::And { left, right } => here(left).min(here(right)),
        Operator::Until { left, right, bounds } => until(sample, bounds, then(left), then(right)),
        Operator::Somewhere { left, bounds } => somewhere(world, place, bounds, there(left)),
        Operator::Surround { left, right, .. } | Operator::SurroundOrIsland { left, right, .. } => {
            surround(point.regions, there(left), there(right))
        }
        Operator::Or { left, right } => here(left).negate().min(here(right).negate()).negate(),
        Operator::Eventually { left, bounds } => until(sample, bounds, always, then(left)),
        Operator::Always { left, bounds } => {
            until(sample, bounds, always, |time| then(left)(time).negate()).negate()
        }
        Operator::Everywhere { left, bounds } => {
            somewhere(world, place, bounds, |other| there(left)(other).negate()).negate()
        }
        Operator::Since { left, right, bounds } => since(sample, bounds, then(left), then(right)),
        Operator::Once { left, bounds } => since(sample, bounds, always, then(left)),
        Operator::Historically { left, bounds } => {
            since(sample, bounds, always, |time| then(left)(time).negate()).negate()
        }
    }
}

fn reading(world: &World, point: &Point, signal: usize) -> i32 {
    world.sheet.reading(point.sample, point.place, signal)
}

/// The finite margin of codes 1 and 2.
fn difference(minuend: i32, subtrahend: i32) -> Margin {
    Margin::Finite(i64::from(minuend) - i64::from(subtrahend))
}

/// The greatest over t' in the window of the lesser of right at t' and the
/// least of left from t to t'.
pub fn until(
    from: usize,
    bounds: Bounds,
    left: impl Fn(usize) -> Margin,
    right: impl Fn(usize) -> Margin,
) -> Margin {
    let window = from + bounds.lower as usize..=from + bounds.upper as usize;
    Margin::greatest(window.map(|time| {
        let held = Margin::least((from..=time).map(&left));
        right(time).min(held)
    }))
}

/// The greatest over t' in the window of the lesser of right at t' and the
/// least of left from t' to t.
pub fn since(
    at: usize,
    bounds: Bounds,
    left: impl Fn(usize) -> Margin,
    right: impl Fn(usize) -> Margin,
) -> Margin {
    let window = at - bounds.upper as usize..=at - bounds.lower as usize;
    Margin::greatest(window.map(|time| {
        let held = Margin::least((time..=at).map(&left));
        right(time).min(held)
    }))
}

/// The greatest over the places within the bounds.
fn somewhere(
    world: &World,
    centre: usize,
    bounds: Bounds,
    left: impl Fn(usize) -> Margin,
) -> Margin {
    Margin::greatest(world.range(centre, bounds).map(left))
}

/// The greatest over the allowed regions of the least of left on the region
/// and right on its outer boundary.
fn surround(
    regions: &[Region],
    left: impl Fn(usize) -> Margin,
    right: impl Fn(usize) -> Margin,
) -> Margin {
    Margin::greatest(regions.iter().map(|region| {
        let inside = Margin::least(region.members().map(&left));
        let outside = Margin::least(region.boundary().map(&right));
        inside.min(outside)
    }))
}
