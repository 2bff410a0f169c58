//! Aims at the roads and the samples: refusals 4 to 9.

use super::{find, other_kind};
use crate::generate::random::Random;
use crate::layout::{Front, Layout, Pair};
use crate::road::{Direction, BOTH_MARKS};
use crate::words::{self, kinds};

/// 4: a spare bit of a road's first word, or both bits of its direction, or both
/// faults. Now and then its pair or its weight is at fault as well.
pub fn road_spare_bits(random: &mut Random, mut words: Vec<u32>) -> Option<Vec<u32>> {
    let at = find(random, &words, kinds::ROAD_PLACES)?;
    let both_places = 2 * Layout::of(&words).place_bits();
    let any = random.field(both_places, 25);
    let spare = 1 << random.pick(&[any, any, 25]) | random.pick(&Direction::ALL).mark();
    words[at] &= !BOTH_MARKS;
    words[at] |= random.pick(&[spare, spare, BOTH_MARKS, BOTH_MARKS, spare | BOTH_MARKS]);
    let pair = (1 << both_places) - 1;
    let before = at.checked_sub(2).map(|before| words[before]);
    match (random.below(10), before) {
        (0..=2, _) => words[at] ^= random.field(0, pair),
        (3 | 4, Some(word)) if words::kind(word) == kinds::ROAD_PLACES => {
            words[at] = words[at] & !pair | word & pair;
        }
        (5, _) => words[at + 1] = words::word(kinds::ROAD_WEIGHT, 0),
        _ => {}
    }
    Some(words)
}

/// 5: the two places equal, exchanged, or the second not below n. The road runs the
/// ways that it ran.
pub fn road_places(random: &mut Random, mut words: Vec<u32>) -> Option<Vec<u32>> {
    let at = find(random, &words, kinds::ROAD_PLACES)?;
    let Front { layout, places, .. } = Front::told(&words);
    let Pair { first, second, .. } = layout.pair(words[at]);
    let most = (1 << layout.place_bits()) - 1;
    let beyond = random.count(places, most);
    // A bit that no place has: without it the pair would be right.
    let unused = usize::BITS - (places - 1).leading_zeros();
    let high = 1 << random.field(unused, layout.place_bits() - 1);
    let (first, second) = random.pick(&[
        (second, first),
        (first, first),
        (second, second),
        (first, places),
        (first, beyond),
        (beyond, beyond),
        (most, most),
        (first, second | high),
        (first | high, second | high),
    ]);
    words[at] = layout.pair_word(first as u32, second as u32) | words[at] & BOTH_MARKS;
    Some(words)
}

/// 6: a road once more after itself, at once or later, as it was or with any
/// direction.
pub fn road_order(random: &mut Random, mut words: Vec<u32>) -> Option<Vec<u32>> {
    let roads = words.iter().filter(|&&word| words::kind(word) == kinds::ROAD_PLACES);
    let count = roads.count();
    if count == 0 {
        return None;
    }
    let again = random.below(count);
    let before = random.count(again + 1, count);
    let at = |road: usize| Layout::of(&words).front_words() + 2 * road;
    let (again, before) = (at(again), at(before));
    let direction = random.pick(&Direction::ALL);
    let other = words[again] & !BOTH_MARKS | direction.mark();
    let road = [random.pick(&[words[again], other]), words[again + 1]];
    words.splice(before..before, road);
    Some(words)
}

/// 7: a weight absent, of another kind, or 0.
pub fn road_weight(random: &mut Random, mut words: Vec<u32>) -> Option<Vec<u32>> {
    let at = find(random, &words, kinds::ROAD_WEIGHT)?;
    match random.below(4) {
        0 => words.truncate(at),
        1 => words[at] = words::word(kinds::ROAD_WEIGHT, 0),
        2 => drop(words.remove(at)),
        _ => words[at] = other_kind(random, words[at], &[]),
    }
    Some(words)
}

/// 8: a sample absent or of another kind. Kind 2 is left out, which in the
/// first sample's place would begin a road.
pub fn sample_kind(random: &mut Random, mut words: Vec<u32>) -> Option<Vec<u32>> {
    let at = find(random, &words, kinds::SAMPLE)?;
    match random.below(3) {
        0 => words.truncate(at),
        1 => drop(words.remove(at)),
        _ => words[at] = other_kind(random, words[at], &[kinds::ROAD_PLACES]),
    }
    Some(words)
}

/// 9: bit 27 of a sample.
pub fn sample_bit(random: &mut Random, mut words: Vec<u32>) -> Option<Vec<u32>> {
    let at = find(random, &words, kinds::SAMPLE)?;
    words[at] |= words::BIT_27;
    Some(words)
}
