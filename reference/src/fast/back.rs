//! Operators that look back in time: since, once, historically. The operands'
//! rows begin upper samples before the first t.
//!
//! Rows are cut into blocks as long as the window. A window is then the last
//! part of one block and the first part of the next, so two passes, one that
//! folds each block from its end and one that folds it from its start, serve all
//! windows, and the time taken does not depend on how long these are. Since is
//! done so too, though it could be folded from t on as until is: so what looks
//! back is found in another way than what looks ahead.

use super::rows::{fold, offer, Rows};
use super::scale::Scale;
use crate::sheet::Bounds;

/// Once and historically: the greatest or the least from t - upper to t - lower.
pub fn window<S: Scale>(left: Rows<S>, bounds: Bounds, pick: impl Fn(S, S) -> S + Copy) -> Vec<S> {
    let windows = Windows::new(left, bounds);
    let mut values = to_ends_of_blocks(left.up_to(windows.rows()), windows.length, pick);
    let mut from_start = left.row(0).to_vec();
    for last in 0..windows.rows() {
        if last % windows.length == 0 {
            from_start.copy_from_slice(left.row(last));
        } else {
            fold(&mut from_start, left.row(last), pick);
        }
        if let Some(first) = (last + 1).checked_sub(windows.length) {
            let value = &mut values[first * left.places..(first + 1) * left.places];
            fold(value, &from_start, pick);
        }
    }
    values.truncate(windows.count * left.places);
    values
}

/// The windows of all t, each beginning one row after the one before.
struct Windows {
    count: usize,
    length: usize,
}

impl Windows {
    fn new<S>(rows: Rows<S>, bounds: Bounds) -> Self {
        let count = rows.count() - bounds.upper as usize;
        Windows { count, length: (bounds.upper - bounds.lower) as usize + 1 }
    }

    /// How many rows they lie in.
    fn rows(&self) -> usize {
        self.count + self.length - 1
    }
}

/// For each row what is picked from there to the end of its block.
fn to_ends_of_blocks<S: Scale>(
    left: Rows<S>,
    length: usize,
    pick: impl Fn(S, S) -> S + Copy,
) -> Vec<S> {
    let mut values = left.values.to_vec();
    for at in (1..left.count()).rev().filter(|at| at % length != 0) {
        let (before, from_here) = values.split_at_mut(at * left.places);
        fold(&mut before[(at - 1) * left.places..], &from_here[..left.places], pick);
    }
    values
}

/// Since. Left has to hold from t' to t - lower and on from there to t, so this
/// is the lesser of a since without a lower bound at t - lower and of the least
/// that left has been from there on.
pub fn since<S: Scale>(left: Rows<S>, right: Rows<S>, bounds: Bounds) -> Vec<S> {
    let window = Bounds { lower: 0, upper: bounds.upper - bounds.lower };
    let waited = Bounds { lower: 0, upper: bounds.lower };
    let ended = left.count() - bounds.lower as usize;
    let mut values = since_now(left.up_to(ended), right.up_to(ended), window);
    let held = self::window(left.from(window.upper as usize), waited, S::min);
    fold(&mut values, &held, S::min);
    values
}

/// Since with 0 as its lower bound. What a run of samples says to those after it
/// is a pair: the least of left, and the greatest that a t' in the run offers at
/// its end. Two runs side by side make one, whose offer is that of the later or
/// what left of the later has let through of the earlier.
fn since_now<S: Scale>(left: Rows<S>, right: Rows<S>, bounds: Bounds) -> Vec<S> {
    let Windows { count, length } = Windows::new(left, bounds);
    let mut values = offers_at_ends_of_blocks(left, right, length);
    let (mut held, mut offered) = (vec![S::TOP; left.places], vec![S::BOTTOM; left.places]);
    for last in 0..left.count() {
        if last % length == 0 {
            held.fill(S::TOP);
            offered.fill(S::BOTTOM);
        }
        fold(&mut held, left.row(last), S::min);
        fold(&mut offered, right.row(last), S::max);
        fold(&mut offered, left.row(last), S::min);
        if let Some(first) = (last + 1).checked_sub(length) {
            let value = &mut values[first * left.places..(first + 1) * left.places];
            fold(value, &held, S::min);
            fold(value, &offered, S::max);
        }
    }
    values.truncate(count * left.places);
    values
}

/// For each row the greatest that a t' from there to the end of its block offers
/// at that end.
fn offers_at_ends_of_blocks<S: Scale>(left: Rows<S>, right: Rows<S>, length: usize) -> Vec<S> {
    let mut offers = vec![S::BOTTOM; left.values.len()];
    let (mut held, mut best) = (vec![S::TOP; left.places], vec![S::BOTTOM; left.places]);
    for (at, row) in offers.chunks_exact_mut(left.places).enumerate().rev() {
        if (at + 1) % length == 0 {
            held.fill(S::TOP);
            best.fill(S::BOTTOM);
        }
        fold(&mut held, left.row(at), S::min);
        offer(&mut best, &held, right.row(at));
        row.copy_from_slice(&best);
    }
    offers
}

#[cfg(test)]
mod tests {
    use super::*;

    const LEFT: [i32; 13] = [4, -1, 7, 7, 2, 9, -3, 5, 6, 6, 1, 8, 3];
    const RIGHT: [i32; 13] = [1, 6, -2, 5, 5, 0, 9, 4, -7, 2, 8, 3, 3];

    /// One place, so that a row is a number.
    fn rows(values: &[i32]) -> Rows<'_, i32> {
        Rows { values, places: 1 }
    }

    /// What a window says at every t, for windows of every length and distance,
    /// most of which do not divide the rows into whole blocks.
    fn for_all_bounds(said: impl Fn(Bounds) -> Vec<i32>, at: impl Fn(usize, Vec<usize>) -> i32) {
        for (lower, upper) in (0..13).flat_map(|upper| (0..=upper).map(move |lower| (lower, upper)))
        {
            let bounds = Bounds { lower: lower as u32, upper: upper as u32 };
            let expected = (upper..13).map(|t| at(t, (t - upper..=t - lower).collect()));
            assert_eq!(said(bounds), expected.collect::<Vec<_>>(), "{bounds:?}");
        }
    }

    fn picked(window: Vec<usize>, pick: fn(i32, i32) -> i32) -> i32 {
        window.into_iter().map(|time| LEFT[time]).reduce(pick).expect("a sample")
    }

    #[test]
    fn windows_of_every_length() {
        for pick in [i32::max as fn(i32, i32) -> i32, i32::min] {
            let said = |bounds| window(rows(&LEFT), bounds, pick);
            for_all_bounds(said, |_, window| picked(window, pick));
        }
    }

    #[test]
    fn since_over_windows_of_every_length() {
        let offered = |t: usize, then: usize| {
            LEFT[then..=t].iter().fold(RIGHT[then], |least, &left| least.min(left))
        };
        let said = |bounds| since(rows(&LEFT), rows(&RIGHT), bounds);
        for_all_bounds(said, |t, window| {
            window.into_iter().map(|then| offered(t, then)).max().expect("a sample")
        });
    }
}
