//! Answers, whole and damaged, and what is looked up in them.

use super::layout;
use super::random::Random;
use crate::answer::Answer;
use crate::layout::{Front, Layout, MOST_PLACES};
use crate::words::{self, kinds};

/// A line, a sample and a place to look up.
pub type Query = (u64, u64, u64);

/// The bytes of an answer after a blow or none, for the lookup.
pub fn damaged(random: &mut Random, answer: &[u8]) -> Vec<u8> {
    let mut words = words::from_bytes(answer).unwrap_or_default();
    if !words.is_empty() {
        strike(random, &mut words);
    }
    let mut bytes = words::to_bytes(&words);
    if random.chance(3) {
        bytes.resize(bytes.len() + random.count(1, 3), 0);
    }
    bytes
}

/// The words of a whole answer that need not be one to any sheet: its verdicts
/// are any that have a word.
pub fn invented(random: &mut Random) -> Vec<u32> {
    let front = invented_front(random);
    laid_out(random, front)
}

/// The words of an answer that is laid out as it must be, but for its places, of
/// which it has none or one more than its layout allows.
pub fn beyond_limits(random: &mut Random) -> Vec<u32> {
    let layout = random.pick(&Layout::BOTH);
    let places = random.pick(&[0, layout.most_places() + 1]);
    let (middle, samples) = (random.count(1, 2), random.count(1, 3));
    laid_out(random, Front { layout, places, middle, samples })
}

/// An answer with this front, and lines as it tells.
fn laid_out(random: &mut Random, front: Front) -> Vec<u32> {
    let Front { places, middle: lines, samples, .. } = front;
    let longest = if places > MOST_PLACES { 2 } else { 6 };
    let mut words = front.words(kinds::ANSWER_HEAD);
    for _ in 0..lines {
        let length = random.count(1, samples.min(longest));
        let any = random.count(0, samples - length);
        let first = random.pick(&[0, any, samples - length]);
        words.push(words::word(kinds::ANSWER_LINE, (first << 12 | length) as u32));
        words.extend((0..length * places).map(|_| verdict_word(random)));
    }
    words.push(words::word(kinds::END, words.len() as u32));
    words
}

/// Places, lines and samples of an answer, often at a limit; a city has few lines.
fn invented_front(random: &mut Random) -> Front {
    let narrow = random.pick(&[1, 1, 2, 3, MOST_PLACES]);
    let city = random.pick(&[MOST_PLACES + 1, 100, 255, 256, 257, 300, 1024]);
    let places = if random.chance(10) { city } else { narrow };
    let most_lines = if places > MOST_PLACES { 2 } else { 64 };
    Front {
        layout: layout(random, places),
        places,
        middle: random.pick(&[1, 2, 3, 64]).min(most_lines),
        samples: random.pick(&[1, 2, 3, 5, 1024]),
    }
}

/// A word of kind 9 to 12 that is laid out as it must be, often at a limit.
fn verdict_word(random: &mut Random) -> u32 {
    const MOST: u32 = (1 << 27) - 1;
    let any = random.field(0, MOST);
    let size = random.pick(&[0, 1, MOST, any]);
    match random.field(kinds::YES, kinds::NO_MINUS_INFINITY) {
        kinds::YES => words::word(kinds::YES, size),
        kinds::NO => words::word(kinds::NO, size.wrapping_neg()),
        infinity => words::word(infinity, 0),
    }
}

fn strike(random: &mut Random, words: &mut Vec<u32>) {
    let at = position(random, words);
    let word = words[at];
    let (kind, payload) = (words::kind(word), words::payload(word));
    match random.below(20) {
        0..=2 => {}
        3 => words.extend([0; 3]),
        4 => words.extend([0, random.pick(&[1, 0xF000_0000, 0x8000_0000])]),
        5 => words[at] ^= 1 << random.below(32),
        6 => words[at] = words::word(random.field(9, 15), payload),
        7 => words[at] = words::word(kind, random.pick(&[0, 1, 1 << 27, (1 << 28) - 1])),
        8 => words[at] = words::word(kind, payload.wrapping_neg()),
        9 => words[at] = word.wrapping_add(random.pick(&[1, u32::MAX])),
        10 => words.truncate(at),
        11 => drop(words.remove(at)),
        12 => words.insert(at, word),
        13 => words[at] = head_or_length(random, word),
        14 => empty_line(random, words),
        15 | 16 => strike_front(random, words),
        _ => strike_line_word(random, words),
    }
}

/// An index, often of one of the rare words that frame the verdicts.
fn position(random: &mut Random, words: &[u32]) -> usize {
    let frame = words::indices(words, |kind| kind >= kinds::ANSWER_HEAD);
    if frame.is_empty() || random.chance(50) {
        random.below(words.len())
    } else {
        random.pick(&frame)
    }
}

/// Strikes the first word or the head: of a wide answer its count, a spare bit of
/// it, the places of its head, or one of the two words as a whole.
fn strike_front(random: &mut Random, words: &mut Vec<u32>) {
    let head = Layout::of(words).head_index().min(words.len() - 1);
    let places = Front::told(words).places as u32;
    let any = random.field(0, 0xFFFF);
    let one_bit = 1 << random.field(0, 7);
    match random.below(8) {
        0 => words[0] |= 1 << random.field(16, 27),
        1 => words[0] = words::word(kinds::WIDE, random.pick(&[0, 1025, 0xFFFF, any])),
        2 => words[0] = words::word(kinds::WIDE, places),
        3 => words[0] = words::word(random.field(0, 15), words[0]),
        4 => words[head] |= random.pick(&[places & 0xFF, one_bit]) << 20,
        5 => words[head] = words::word(random.field(0, 15), words[head]),
        6 => drop(words.remove(0)),
        _ => words[0] ^= 1 << random.field(0, 15),
    }
}

/// The word with one of its fields at or beyond a limit.
fn head_or_length(random: &mut Random, word: u32) -> u32 {
    let (shift, mask) = random.pick(&[(20, 0xFF), (12, 0xFF), (12, 0xFFF), (0, 0xFFF)]);
    let field = random.pick(&[0, 1, 16, 64, 65, 1024, 1025, mask]) & mask;
    (word & !(mask << shift)) | (field << shift)
}

/// Strikes a line's word, if there is one, above its first sample or there: to
/// one with which the line still ends at T or before, or to one beyond.
fn strike_line_word(random: &mut Random, words: &mut [u32]) {
    let lines = words::indices(words, |kind| kind == kinds::ANSWER_LINE);
    if lines.is_empty() {
        return;
    }
    let at = random.pick(&lines);
    let (first, length) = (words::field(words[at], 23, 12), words::field(words[at], 11, 0));
    let most = (Front::told(words).samples as u32).saturating_sub(length);
    let within = random.field(0, most);
    let beyond = random.field(most, 0xFFF);
    let (above, first) = match random.below(8) {
        0 => (random.field(1, 0xF), first),
        1 => (1 << random.field(0, 3), first),
        2 => (0, (most + 1).min(0xFFF)),
        3 => (0, beyond),
        4 => (0, most),
        5 => (0, first.saturating_sub(1)),
        _ => (0, within),
    };
    words[at] = words::word(kinds::ANSWER_LINE, above << 24 | first << 12 | length);
}

/// Takes all verdicts of a line away, if there is one, and counts length and end
/// anew: laid out in order, but for a line without a sample.
fn empty_line(random: &mut Random, words: &mut Vec<u32>) {
    let frame = words::indices(words, |kind| kind >= kinds::ANSWER_LINE);
    let Some(&end) = frame.last().filter(|_| frame.len() >= 2) else {
        return;
    };
    let line = random.below(frame.len() - 1);
    let (at, next) = (frame[line], frame[line + 1]);
    words[end] = words::word(kinds::END, (end - (next - at - 1)) as u32);
    words[at] &= !0xFFF;
    words.drain(at + 1..next);
}

/// A query at the edge of what a line has: just before its first sample, at
/// sample 0, at its first, at its last, and just after that. The place is any that
/// there is, often the last.
pub fn query_at_edge(random: &mut Random, answer: &Answer) -> Query {
    let number = random.below(answer.lines.len());
    let line = &answer.lines[number];
    let first = line.first as u64;
    let end = first + (line.verdicts.len() / answer.places) as u64;
    let sample = random.pick(&[first.wrapping_sub(1), 0, first, end - 1, end]);
    let any = random.below(answer.places);
    let place = random.pick(&[any, any, answer.places - 1]);
    (number as u64, sample, place as u64)
}

/// A query that is mostly inside sizes like these and sometimes beyond.
pub fn query(random: &mut Random, lines: u64, samples: u64, places: u64) -> Query {
    let mut number = |count: u64| match random.below(12) {
        0 => count,
        1 => random.pick(&[u64::MAX, 1 << 32, 1 << 63, count + 1]),
        _ => random.bits() % count.max(1),
    };
    (number(lines), number(samples), number(places))
}
