//! Damage without an aim.

use super::random::Random;
use crate::words::{self, kinds};

/// Damages the words in one to three places. Half of the sheets get an end of
/// the right count again, so that what stands before it is judged.
pub fn damage(random: &mut Random, words: &mut Vec<u32>) {
    for _ in 0..random.count(1, 3) {
        strike(random, words);
    }
    if random.chance(50) {
        renew_end(words);
    }
}

/// Sets the last word to the end that belongs there.
pub fn renew_end(words: &mut [u32]) {
    let before = words.len().saturating_sub(1) as u32;
    if let Some(last) = words.last_mut() {
        *last = words::word(kinds::END, before);
    }
}

fn strike(random: &mut Random, words: &mut Vec<u32>) {
    if words.is_empty() {
        words.push(random.bits() as u32);
        return;
    }
    let at = position(random, words);
    let other = position(random, words);
    match random.below(11) {
        0 | 1 => words[at] ^= 1 << random.below(32),
        2 => words[at] = words::word(random.field(0, 15), words::payload(words[at])),
        3 => words[at] = words::word(words::kind(words[at]), random.bits() as u32),
        4 => words.swap(at, other),
        5 => drop(words.remove(at)),
        6 => words.insert(at, words[other]),
        7 => words.insert(at, random.bits() as u32),
        8 => words.truncate(at),
        9 => words.push(random.pick(&[0, words[other], words[at]])),
        _ => words[at] = random.bits() as u32,
    }
}

/// An index, often one of a rare kind: samples are many, heads and ends few.
fn position(random: &mut Random, words: &[u32]) -> usize {
    if random.chance(40) {
        return random.below(words.len());
    }
    let wanted = random.pick(&[1, 2, 3, 4, 5, 5, 6, 7, 8, 10, 15]);
    let found = words::indices(words, |kind| kind == wanted);
    if found.is_empty() {
        random.below(words.len())
    } else {
        random.pick(&found)
    }
}
