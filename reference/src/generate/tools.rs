//! What is given to a tool: its inputs, and what a host lends beside them.

use super::aim::lent::{odd, odd_input};
use super::corrections;
use super::random::Random;
use crate::layout::{Front, Layout};
use crate::tool::RESULT_BYTES;
use crate::words::{self, BYTES_PER_WORD};

/// A tool's inputs, and the lengths in bytes of the buffers lent beside them.
#[derive(Clone, Debug, PartialEq, Eq)]
pub struct Given {
    /// The bytes of each input.
    pub inputs: Vec<Vec<u8>>,
    /// The length of the output.
    pub output: usize,
    /// The length of the result.
    pub result: usize,
}

impl Given {
    /// Inputs with room for so many words and a result as it should be lent.
    pub fn of(inputs: &[&[u32]], output_words: usize) -> Self {
        Given {
            inputs: inputs.iter().map(|words| words::to_bytes(words)).collect(),
            output: output_words * BYTES_PER_WORD,
            result: RESULT_BYTES,
        }
    }

    /// Inputs with what a host lends, for a tool that has so many words to write: just
    /// enough, more, or too little; now and then a length is one that cannot be.
    pub fn lend(random: &mut Random, inputs: Vec<Vec<u8>>, needed: usize) -> Self {
        let output = room(random, needed) * BYTES_PER_WORD;
        let mut given = Given { inputs, output, result: RESULT_BYTES };
        if random.chance(8) {
            odd_lengths(random, &mut given);
        }
        given
    }
}

/// Words of room where so many are needed: just as many, more, one fewer, none, or
/// any number below.
fn room(random: &mut Random, needed: usize) -> usize {
    let fewer = random.below(needed.max(1));
    match random.below(20) {
        0..=5 => needed,
        6..=10 => needed + random.pick(&[1, 1, 2, 17, 1000]),
        11..=14 => needed.saturating_sub(1),
        15 | 16 => 0,
        _ => fewer,
    }
}

/// Lengths that cannot be, of one list or of several.
fn odd_lengths(random: &mut Random, given: &mut Given) {
    let mask = random.field(1, 7);
    if mask & 1 != 0 {
        let which = random.below(given.inputs.len());
        odd_input(random, &mut given.inputs[which]);
    }
    if mask & 2 != 0 {
        given.output += odd(random);
    }
    if mask & 4 != 0 {
        given.result = random.pick(&[0, 1, 8, 16, RESULT_BYTES - 1, RESULT_BYTES + 1, 40]);
    }
}

/// A sheet's bytes, right or wrong, to be taken to a layout. Where they are wrong,
/// the words that would be needed were they right are what room is measured by.
pub fn conversion(random: &mut Random, sheet: &[u8], to: Layout) -> Given {
    let from = Front::told_by_bytes(sheet).layout;
    let needed = sheet.len() / BYTES_PER_WORD + to.front_words() - from.front_words();
    Given::lend(random, vec![sheet.to_vec()], needed)
}

/// A sheet's bytes, right or wrong, with a list of corrections, right or wrong as well.
pub fn correction(random: &mut Random, sheet: &[u8]) -> Given {
    let list = corrections::list(random, sheet);
    let needed = sheet.len() / BYTES_PER_WORD;
    Given::lend(random, vec![sheet.to_vec(), words::to_bytes(&list)], needed)
}
