//! Corrections that clash: one sample, one revision, and unlike values.

use super::{aim, numbers};
use crate::correct::Correction;
use crate::generate::random::Random;
use crate::generate::valid::Numbers;
use crate::layout::Front;
use crate::words;

/// The greatest revision.
const GREATEST: u32 = 255;

/// The bits of a value, 26..0.
const VALUE_BITS: usize = 27;

/// Adds a correction that clashes with an earlier one: right behind it, at the end of
/// the list, or anywhere between. Often the sample has a higher revision as well, of
/// which there may be one already.
pub fn clash(random: &mut Random, front: &Front, corrections: &mut Vec<Correction>) {
    if corrections.is_empty() {
        let revision = random.field(1, GREATEST);
        let value = numbers(random).draw(random);
        corrections.push(Correction { revision, aim: aim(random, front), value });
    }
    let earlier = random.below(corrections.len());
    let later = unlike(random, corrections[earlier]);
    let anywhere = random.count(earlier + 1, corrections.len());
    let at = random.pick(&[earlier + 1, corrections.len(), anywhere]);
    corrections.insert(at, later);
    if random.chance(50) {
        outdate(random, corrections, later);
    }
}

/// Makes the last correction clash with the first, of a list that has two.
pub fn clash_of_ends(random: &mut Random, corrections: &mut [Correction]) {
    if let [first, .., last] = corrections {
        *last = unlike(random, *first);
    }
}

/// The same sample and revision with another value, often one that differs in a bit.
fn unlike(random: &mut Random, correction: Correction) -> Correction {
    let bit = 1 << random.below(VALUE_BITS);
    let flipped = words::signed27(words::sample_payload(correction.value) ^ bit);
    let drawn = Numbers::Any.draw(random);
    let value = if drawn == correction.value || random.chance(50) { flipped } else { drawn };
    Correction { value, ..correction }
}

/// Adds, anywhere, a higher revision of the same sample that clashes with none. There
/// is nothing to add if all of them are taken.
fn outdate(random: &mut Random, corrections: &mut Vec<Correction>, outdated: Correction) {
    let is_free = |&revision: &u32| {
        let is_taken = |other: &Correction| other.aim == outdated.aim && other.revision == revision;
        !corrections.iter().any(is_taken)
    };
    let free: Vec<u32> = (outdated.revision + 1..=GREATEST).filter(is_free).collect();
    if !free.is_empty() {
        let revision = random.pick(&free);
        let value = Numbers::Any.draw(random);
        let at = random.count(0, corrections.len());
        corrections.insert(at, Correction { revision, value, ..outdated });
    }
}
