//! Faults in the words of a list of corrections.

use super::aim;
use crate::correct::{Correction, WORDS_PER_CORRECTION};
use crate::generate::random::Random;
use crate::layout::Front;
use crate::words::{self, kinds, BIT_27};

/// Where the fields of a correction's first word begin, and what they hold at most.
const REVISION: (u32, u32) = (20, 0xFF);
const SIGNAL: (u32, u32) = (12, 0xFF);
const TIME: (u32, u32) = (0, 0xFFF);

/// The same of the place in its second word.
const PLACE: (u32, u32) = (0, 0xFFFF);

/// Puts a fault into a list for a sheet with this front, or two: in a word of any of
/// its corrections, at its end, or by words that stand elsewhere.
pub fn spoil(random: &mut Random, front: &Front, list: &mut Vec<u32>) {
    if list.is_empty() {
        let correction = Correction { revision: 1, aim: aim(random, front), value: 0 };
        list.extend(correction.words());
    }
    for _ in 0..random.pick(&[1, 1, 1, 2]) {
        match random.below(12) {
            0 | 1 => cut(random, list),
            2 => shift(random, list),
            3 => *any_word(random, list).1 = random.bits() as u32,
            _ => strike(random, front, list),
        }
    }
}

/// Some words of the last correction are missing, or there is a word or two of one
/// more.
fn cut(random: &mut Random, list: &mut Vec<u32>) {
    let some = random.count(1, WORDS_PER_CORRECTION - 1);
    if random.chance(50) {
        list.truncate(list.len().saturating_sub(some));
    } else {
        list.extend_from_within(..some.min(list.len()));
    }
}

/// A word is missing, stands twice, or has changed its place with another.
fn shift(random: &mut Random, list: &mut Vec<u32>) {
    if list.is_empty() {
        return;
    }
    let (at, other) = (random.below(list.len()), random.below(list.len()));
    match random.below(3) {
        0 => drop(list.remove(at)),
        1 => list.insert(at, list[other]),
        _ => list.swap(at, other),
    }
}

/// One of the words, with its place in its correction. A list without any gets one.
fn any_word<'a>(random: &mut Random, list: &'a mut Vec<u32>) -> (usize, &'a mut u32) {
    if list.is_empty() {
        list.push(0);
    }
    let at = random.below(list.len());
    (at % WORDS_PER_CORRECTION, &mut list[at])
}

/// Gives a word a fault that a word in its place can have.
fn strike(random: &mut Random, front: &Front, list: &mut Vec<u32>) {
    let (at, word) = any_word(random, list);
    let cause = random.below(4);
    *word = match (at, cause) {
        (_, 0) => of_another_kind(random, *word),
        (0, 1) => with_field(*word, REVISION, 0),
        (0, 2) => with_field(*word, SIGNAL, beyond(random, front.middle, SIGNAL)),
        (0, _) => with_field(*word, TIME, beyond(random, front.samples, TIME)),
        (1, 1) => *word | 1 << random.field(16, 27),
        (1, _) => with_field(*word, PLACE, beyond(random, front.places, PLACE)),
        _ => *word | BIT_27,
    };
}

/// The same payload with another kind, mostly one that stands in the same list, or one
/// that is close at hand: a count that never came, a constant.
fn of_another_kind(random: &mut Random, word: u32) -> u32 {
    let any = random.field(0, 15);
    let close = [kinds::CORRECTION, kinds::CORRECTED_PLACE, kinds::SAMPLE, kinds::CONSTANT, 0, any];
    words::word(random.pick(&close), words::payload(word))
}

fn with_field(word: u32, (low, most): (u32, u32), number: u32) -> u32 {
    word & !(most << low) | number << low
}

/// A number that is not below a count, as far as its field holds one: often the count
/// itself, or one that would be below it but for a bit.
fn beyond(random: &mut Random, count: usize, (_, most): (u32, u32)) -> u32 {
    let count = (count as u32).min(most);
    let any = random.field(count, most);
    let below = random.field(0, count.saturating_sub(1));
    let with_a_bit = below | 1 << random.below(most.count_ones() as usize);
    random.pick(&[count, count, most, any, with_a_bit.max(count), with_a_bit.max(count)])
}
