//! Aims at the words before the roads: refusals 2, 3 and 17.

use super::other_kind;
use crate::generate::random::Random;
use crate::layout::{Layout, MOST_PLACES, MOST_WIDE_PLACES};
use crate::sheet::{MOST_SAMPLES, MOST_SIGNALS};
use crate::words::{self, kinds};

/// A field of a head: its lowest bit, its mask, and the greatest size.
type Field = (u32, u32, usize);

const PLACES: Field = (20, 0xFF, MOST_PLACES);
const SIGNALS: Field = (12, 0xFF, MOST_SIGNALS);
const SAMPLES: Field = (0, 0xFFF, MOST_SAMPLES);

/// 2: the first word absent or of another kind than a narrow or a wide sheet
/// begins with.
pub fn head_kind(random: &mut Random, mut words: Vec<u32>) -> Option<Vec<u32>> {
    if random.chance(20) {
        words.clear();
    } else {
        words[0] = other_kind(random, words[0], &[kinds::HEAD, kinds::WIDE]);
    }
    Some(words)
}

/// 3: n, v or T below 1 or above its limit; the head of a wide sheet has no n.
pub fn head_limits(random: &mut Random, mut words: Vec<u32>) -> Option<Vec<u32>> {
    let layout = Layout::of(&words);
    let (shift, mask, most) = match layout {
        Layout::Narrow => random.pick(&[PLACES, SIGNALS, SAMPLES]),
        Layout::Wide => random.pick(&[SIGNALS, SAMPLES]),
    };
    let most = most as u32;
    let above = random.field(most + 1, mask);
    let size = random.pick(&[0, most + 1, mask, above]);
    let head = &mut words[layout.head_index()];
    *head = (*head & !(mask << shift)) | (size << shift);
    Some(words)
}

/// 17: the count of a wide head outside its limits, a spare bit of it set, or no
/// head with places 0 after it. What is refused later is often wrong as well.
pub fn wide_head(random: &mut Random, mut words: Vec<u32>) -> Option<Vec<u32>> {
    if !Layout::of(&words).is_wide() {
        return None;
    }
    if random.chance(20) {
        words = head_limits(random, words)?;
    }
    match random.below(7) {
        0 => words[0] = words::word(kinds::WIDE, 0),
        1 => words[0] = words::word(kinds::WIDE, above(random)),
        2 => words[0] |= 1 << random.field(16, 27),
        3 => words.truncate(1),
        4 => drop(words.remove(1)),
        5 => words[1] = other_kind(random, words[1], &[]),
        _ => words[1] |= places_in_head(random, words[0]) << 20,
    }
    Some(words)
}

/// A count of places above the limit, often just above.
fn above(random: &mut Random) -> u32 {
    let least = MOST_WIDE_PLACES as u32 + 1;
    let any = random.field(least, 0xFFFF);
    random.pick(&[least, least, any, 0xFFFF])
}

/// Places that belong not there, often as many as there are.
fn places_in_head(random: &mut Random, first: u32) -> u32 {
    let any = random.field(1, 0xFF);
    let one_bit = 1 << random.field(0, 7);
    let told = words::field(first, 7, 0).max(1);
    random.pick(&[told, told, any, one_bit])
}
