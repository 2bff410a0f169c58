//! Lists of corrections for a sheet: right ones, such that clash, and such with a
//! fault in their words.

mod clashes;
mod faults;

pub use clashes::{clash, clash_of_ends};
pub use faults::spoil;

use super::random::Random;
use super::valid::Numbers;
use crate::correct::{self, Aim, Correction};
use crate::layout::Front;
use crate::words::BYTES_PER_WORD;
use std::collections::HashMap;

/// Revisions on both sides of what 7 bits hold, and of what 8 bits do with a sign.
const AROUND_BITS: [u32; 7] = [1, 2, 127, 128, 129, 254, 255];

/// Sheets of more words are not outnumbered by corrections.
const MOST_OUTNUMBERED: usize = 200;

/// From where the revisions of a list are drawn.
#[derive(Clone, Copy, Debug)]
enum Revisions {
    /// All are the same.
    One(u32),
    /// From few, so that many are equal.
    Few,
    /// From those around what some bits hold.
    Around,
    /// From all there are.
    Any,
}

impl Revisions {
    fn pick(random: &mut Random) -> Self {
        let one = Revisions::One(random.field(1, 255));
        random.pick(&[one, Revisions::Few, Revisions::Few, Revisions::Around, Revisions::Any])
    }

    fn draw(self, random: &mut Random) -> u32 {
        match self {
            Revisions::One(revision) => revision,
            Revisions::Few => random.field(1, 3),
            Revisions::Around => random.pick(&AROUND_BITS),
            Revisions::Any => random.field(1, 255),
        }
    }
}

/// What corrections are drawn from.
struct Source {
    aims: Vec<Aim>,
    revisions: Revisions,
    numbers: Numbers,
}

impl Source {
    fn draw(&self, random: &mut Random) -> Correction {
        Correction {
            revision: self.revisions.draw(random),
            aim: random.pick(&self.aims),
            value: self.numbers.draw(random),
        }
    }

    /// So many of them, no two of which clash.
    fn draw_all(&self, random: &mut Random, count: usize) -> Vec<Correction> {
        let mut corrections: Vec<Correction> = (0..count).map(|_| self.draw(random)).collect();
        settle(&mut corrections);
        corrections
    }
}

/// The words of a list for a sheet's bytes, right or wrong: of a hundred lists for a
/// right sheet about 45 are right as well, 28 clash, and 27 have a fault.
pub fn list(random: &mut Random, sheet: &[u8]) -> Vec<u32> {
    let front = Front::told_by_bytes(sheet);
    let mut corrections = right(random, &front, sheet.len() / BYTES_PER_WORD);
    let fate = random.below(100);
    if matches!(fate, 45..=79) {
        for _ in 0..random.pick(&[1, 1, 2]) {
            clash(random, &front, &mut corrections);
        }
    }
    let mut list = correct::list(&corrections);
    if fate >= 73 {
        spoil(random, &front, &mut list);
    }
    list
}

/// Corrections for a sheet of so many words, no two of which clash: none, few or
/// many, now and then more than the sheet has words, or one sample's in many
/// revisions.
pub fn right(random: &mut Random, front: &Front, words: usize) -> Vec<Correction> {
    let (source, count) = match random.below(20) {
        0 => in_many_revisions(random, front),
        _ => of_few_samples(random, front, words),
    };
    let mut corrections = source.draw_all(random, count);
    put_in_order(random, &mut corrections);
    corrections
}

/// As many samples as there are corrections, or fewer, and what they are drawn from.
fn of_few_samples(random: &mut Random, front: &Front, words: usize) -> (Source, usize) {
    let count = match random.below(20) {
        0 | 1 => 0,
        2 | 3 => 1,
        4..=11 => random.count(2, 6),
        12..=18 => random.count(7, 40),
        _ => words.min(MOST_OUTNUMBERED) + random.count(1, 9),
    };
    let aimed_at = random.pick(&[1, 2, 3, count / 2 + 1, count + 1]);
    let source = Source {
        aims: (0..aimed_at).map(|_| aim(random, front)).collect(),
        revisions: Revisions::pick(random),
        numbers: numbers(random),
    };
    (source, count)
}

/// One sample, most of its revisions there, some twice.
fn in_many_revisions(random: &mut Random, front: &Front) -> (Source, usize) {
    let source = Source {
        aims: vec![aim(random, front)],
        revisions: Revisions::Any,
        numbers: numbers(random),
    };
    (source, random.count(20, 300))
}

/// So many corrections of samples all over a sheet, in any revision, no two of which
/// clash.
pub fn all_over(random: &mut Random, front: &Front, count: usize) -> Vec<Correction> {
    let aims = (0..count).map(|_| aim(random, front)).collect();
    let source = Source { aims, revisions: Revisions::Any, numbers: Numbers::Any };
    source.draw_all(random, count)
}

fn numbers(random: &mut Random) -> Numbers {
    random.pick(&[Numbers::Ties, Numbers::Small, Numbers::Extreme, Numbers::Any])
}

/// Any sample of a sheet with this front, now and then its first or its last. A front
/// that tells of none has one here, since a list is wanted for it as well.
fn aim(random: &mut Random, front: &Front) -> Aim {
    let lasts = [front.middle, front.samples, front.places].map(|size| size.max(1) - 1);
    let [signal, time, place] = match random.below(12) {
        0 => [0; 3],
        1 => lasts,
        _ => lasts.map(|last| random.count(0, last)),
    };
    Aim { signal: signal as u32, time: time as u32, place: place as u32 }
}

/// Gives corrections of one sample and revision the value of the first of them.
pub fn settle(corrections: &mut [Correction]) {
    let mut values = HashMap::new();
    for Correction { revision, aim, value } in corrections {
        let key = (aim.signal, aim.time, aim.place, *revision);
        *value = *values.entry(key).or_insert(*value);
    }
}

/// Mostly as they were drawn, else by revision, up or down, or by sample.
fn put_in_order(random: &mut Random, corrections: &mut [Correction]) {
    match random.below(8) {
        0 => corrections.sort_by_key(|correction| correction.revision),
        1 => corrections.sort_by_key(|correction| u32::MAX - correction.revision),
        2 => corrections.sort_by_key(|correction| correction.aim),
        _ => {}
    }
}
