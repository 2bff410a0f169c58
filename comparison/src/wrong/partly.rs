//! Engines that are right but on some sheets.

use crate::reached::one_way;
use crate::{Engine, Filled, Implementation};
use reference::layout::{Front, MOST_PLACES};
use reference::words;

/// The other engine on sheets of which this is so, and right on all others.
struct Where<E> {
    is_so: fn(&[u8]) -> bool,
    other: E,
}

impl<E: Engine> Engine for Where<E> {
    fn judge(&self, sheet: &[u8], left: Filled) -> u64 {
        if (self.is_so)(sheet) {
            self.other.judge(sheet, left)
        } else {
            Implementation.judge(sheet, left)
        }
    }

    fn lookup(&self, answer: &[u8], line: u64, sample: u64, place: u64) -> u64 {
        Implementation.lookup(answer, line, sample, place)
    }
}

/// Right up to 64 places; beyond it is the other engine.
pub fn beyond(other: impl Engine) -> impl Engine {
    Where { is_so: |sheet| Front::told_by_bytes(sheet).places > MOST_PLACES, other }
}

/// Right where all roads run both ways; elsewhere it is the other engine.
pub fn where_one_way(other: impl Engine) -> impl Engine {
    Where { is_so: |sheet| one_way::is_in(&words::from_bytes(sheet).unwrap_or_default()), other }
}
