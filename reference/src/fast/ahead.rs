//! Operators that look ahead in time: until, eventually, always. The operands'
//! rows go upper samples past the last t.

use super::carried::Carried;
use super::rows::{fold, Rows};
use super::scale::Scale;
use crate::sheet::Bounds;

/// Until, for all t. Reading ends once it is known at every place what is said.
pub fn until<S: Scale>(left: Rows<S>, right: Rows<S>, bounds: Bounds) -> Vec<S> {
    let (lower, upper) = (bounds.lower as usize, bounds.upper as usize);
    let mut values = vec![S::BOTTOM; left.values.len() - upper * left.places];
    let mut held = vec![S::TOP; left.places];
    for (t, said) in values.chunks_exact_mut(left.places).enumerate() {
        let mut carried = Carried::new(&mut held, said);
        for far in 0..=upper {
            carried.read(left.row(t + far), right.row(t + far), far >= lower);
            if carried.is_known() {
                break;
            }
        }
    }
    values
}

/// Eventually and always: the greatest or the least over the window, which is
/// never empty.
pub fn window<S: Scale>(left: Rows<S>, bounds: Bounds, pick: impl Fn(S, S) -> S + Copy) -> Vec<S> {
    let (lower, upper) = (bounds.lower as usize, bounds.upper as usize);
    let count = left.count() - upper;
    let mut values = left.from(lower).up_to(count).values.to_vec();
    for (from, picked) in values.chunks_exact_mut(left.places).enumerate() {
        for time in from + lower + 1..=from + upper {
            fold(picked, left.row(time), pick);
        }
    }
    values
}
