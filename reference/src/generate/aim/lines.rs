//! Aims at the table and the end: refusals 10, 11, 12 and 14.

use super::{find, line_words, other_kind};
use crate::generate::damage::renew_end;
use crate::generate::random::Random;
use crate::layout::Front;
use crate::sheet::GREATEST_WEIGHT as GREATEST;
use crate::sheet::{LAST_CODE, MOST_LINES};
use crate::words::{self, kinds};

/// 10: no first line, or a 65th.
pub fn line_count(random: &mut Random, mut words: Vec<u32>) -> Option<Vec<u32>> {
    let lines = line_words(&words);
    let first = lines[0];
    match random.below(6) {
        0 => words.truncate(first),
        1 => drop(words.drain(first..words.len() - 1)),
        2 => words[first] = other_kind(random, words[first], &[]),
        3 => words.insert(first, words[first - 1]),
        _ => {
            words.pop();
            let missing = MOST_LINES - lines.len();
            words.extend(vec![words::word(kinds::LINE, 0); missing]);
            let payload = random.pick(&[0, (LAST_CODE + 1) << 20, GREATEST]);
            words.push(words::word(kinds::LINE, payload));
            words.push(0);
        }
    }
    if random.chance(50) && words.len() > first + 1 {
        renew_end(&mut words);
    }
    Some(words)
}

/// 11: a code above 15, a signal not below v, an operand that is no earlier
/// line, or an unused field that is not zero.
pub fn line_word(random: &mut Random, mut words: Vec<u32>) -> Option<Vec<u32>> {
    let lines = line_words(&words);
    let any = random.below(lines.len());
    let number = random.pick(&[any, any, lines.len() - 1]);
    let at = lines[number];
    let code = words::field(words[at], 27, 20);
    let signals = Front::told(&words).middle as u32;
    let earlier = number as u32;
    let set = |word: u32, shift: u32, field: u32| (word & !(0x3FF << shift)) | (field << shift);
    let (left_from, right_from) = match code {
        0 => (1, 1),
        1 | 2 => (signals, 1),
        4 | 5 | 7 | 8 | 12 | 15 => (earlier, earlier),
        _ => (earlier, 1),
    };
    let unknown = random.field(LAST_CODE + 1, 255);
    let unknown = random.pick(&[LAST_CODE + 1, unknown]);
    words[at] = match random.below(5) {
        0 => words::with_code(words[at], unknown),
        1 => set(words[at], 10, left_from),
        2 => set(words[at], 0, right_from),
        3 => set(words[at], 10, random.field(left_from, 1023)),
        _ => set(words[at], 0, random.field(right_from, 1023)),
    };
    Some(words)
}

/// 12: a parameter absent, of another kind, a constant with bit 27, or an upper
/// bound below the lower.
pub fn parameter(random: &mut Random, mut words: Vec<u32>) -> Option<Vec<u32>> {
    let kind = random.pick(&[kinds::CONSTANT, kinds::LOWER, kinds::UPPER]);
    let any = find(random, &words, kind)?;
    let last = words.iter().rposition(|&word| words::kind(word) == kind)?;
    let at = random.pick(&[any, any, last]);
    match random.below(5) {
        0 => words.truncate(at),
        1 => drop(words.remove(at)),
        2 => words[at] = other_kind(random, words[at], &[]),
        _ if kind == kinds::CONSTANT => words[at] |= words::BIT_27,
        _ => {
            let upper = if kind == kinds::UPPER { at } else { at + 1 };
            cross(random, &mut words, upper);
        }
    }
    Some(words)
}

/// Makes the upper bound at an index less than the lower before it.
fn cross(random: &mut Random, words: &mut [u32], upper: usize) {
    let above = words::payload(words[upper]) + 1;
    if above > GREATEST || random.chance(20) {
        words[upper - 1] = words::word(kinds::LOWER, GREATEST);
        words[upper] = words::word(kinds::UPPER, random.pick(&[0, GREATEST - 1]));
    } else {
        let any = random.field(above, GREATEST);
        let lower = random.pick(&[above, any]);
        words[upper - 1] = words::word(kinds::LOWER, lower);
    }
}

/// 14: the end absent, of another kind, of a wrong count, or not the last.
pub fn end(random: &mut Random, mut words: Vec<u32>) -> Option<Vec<u32>> {
    let at = words.len() - 1;
    match random.below(6) {
        0 => words.truncate(at),
        1 => words[at] = other_kind(random, words[at], &[kinds::LINE]),
        2 => words[at] = words::word(kinds::END, random.pick(&[at + 1, at - 1]) as u32),
        3 => words[at] ^= 1 << random.field(0, 27),
        4 => words.push(0),
        _ => words.push(random.bits() as u32),
    }
    Some(words)
}
