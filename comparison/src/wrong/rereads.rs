//! Engines that read other words than there are.

use crate::{Engine, Filled, Implementation};
use reference::words::{self, kinds};

/// Right on the words that it makes of a sheet's.
pub struct Rereads<F>(pub F);

impl<F: Fn(&mut [u32])> Engine for Rereads<F> {
    fn judge(&self, sheet: &[u8], left: Filled) -> u64 {
        match words::from_bytes(sheet) {
            Some(mut words) => {
                (self.0)(&mut words);
                Implementation.judge(&words::to_bytes(&words), left)
            }
            None => Implementation.judge(sheet, left),
        }
    }

    fn lookup(&self, answer: &[u8], line: u64, sample: u64, place: u64) -> u64 {
        Implementation.lookup(answer, line, sample, place)
    }
}

/// Changes the first words of roads.
pub fn reread_roads(words: &mut [u32], reread: impl Fn(u32) -> u32) {
    let is_road = |word: &&mut u32| words::kind(**word) == kinds::ROAD_PLACES;
    words.iter_mut().filter(is_road).for_each(|word| *word = reread(*word));
}
