//! What the tools have in common: those that read lists of words and write one,
//! without judging.
//!
//! They "lend no distance table, so no 1 arises; their result is number, place and
//! words written. A sheet's own fault comes first with its number and place, a
//! short output last, as 15 at the first input's length. On refusal the output is
//! all zero, otherwise the words past those written are."

use crate::layout::ENOUGH_DISTANCES;
use crate::numbers::{self, BYTES_PER_NUMBER};
use crate::refusal::{Fault, Refusal};
use crate::sheet::{check, Sheet};
use crate::words::{self, BYTES_PER_WORD};

/// The bytes of a tool's result: three numbers of eight bytes each.
pub const RESULT_BYTES: usize = 3 * BYTES_PER_NUMBER;

/// "Number, place and words written", all but the last 0 where a tool has done what
/// it was asked for.
#[derive(Clone, Copy, Debug, Default, PartialEq, Eq)]
pub struct Outcome {
    /// The refusal's number, 0 if there is none.
    pub number: u64,
    /// The refusal's place, 0 if there is none.
    pub place: u64,
    /// The words written, 0 on refusal.
    pub words: u64,
}

impl Outcome {
    /// The result's bytes: three numbers in the order above.
    pub fn to_bytes(self) -> [u8; RESULT_BYTES] {
        let mut bytes = [0; RESULT_BYTES];
        numbers::put(&mut bytes, [self.number, self.place, self.words]);
        bytes
    }

    /// The result that bytes hold, if they are 24.
    pub fn from_bytes(bytes: &[u8]) -> Option<Outcome> {
        let [number, place, words] = numbers::read(bytes)?;
        Some(Outcome { number, place, words })
    }
}

impl From<Refusal> for Outcome {
    fn from(refusal: Refusal) -> Self {
        Outcome { number: refusal.number(), place: refusal.place as u64, words: 0 }
    }
}

/// The number that a tool gave back, and the bytes of the lent buffers after the
/// call.
#[derive(Clone, Debug, PartialEq, Eq)]
pub struct Left {
    /// The number given back.
    pub number: u64,
    /// The output's bytes.
    pub output: Vec<u8>,
    /// The result's bytes.
    pub result: Vec<u8>,
}

impl Left {
    /// The result, if 24 bytes were lent for it.
    pub fn outcome(&self) -> Option<Outcome> {
        Outcome::from_bytes(&self.result)
    }

    /// The words written, without those past them.
    pub fn written(&self) -> Vec<u32> {
        let count = self.outcome().map_or(0, |outcome| outcome.words as usize);
        words::first_words(&self.output, count)
    }
}

/// What a sheet says, or its own fault. Nothing is lent for its distances, and as
/// many as any sheet can need are as good as none: "no 1 arises".
pub fn valid(sheet: &[u32]) -> Result<Sheet, Refusal> {
    check(sheet, ENOUGH_DISTANCES)
}

/// Runs a tool over lent bytes and gives the number. The tool gets the words of
/// each input and gives those that are to be written, or why not.
///
/// Every lent byte is set, whatever the outcome. Zero are the words past those
/// written, on refusal the whole output, also bytes past its last whole word, and a
/// result that is not of 24 bytes.
pub fn run<const N: usize>(
    inputs: [&[u8]; N],
    output: &mut [u8],
    result: &mut [u8],
    tool: impl FnOnce([&[u32]; N]) -> Result<Vec<u32>, Refusal>,
) -> u64 {
    output.fill(0);
    result.fill(0);
    let written = words_of(inputs, output.len(), result.len()).and_then(|inputs| {
        let inputs = inputs.each_ref().map(Vec::as_slice);
        let words = tool(inputs)?;
        enough_room(output.len(), words.len(), &inputs)?;
        Ok(words)
    });
    let outcome = match written {
        Ok(words) => put(output, &words),
        Err(refusal) => refusal.into(),
    };
    if result.len() == RESULT_BYTES {
        result.copy_from_slice(&outcome.to_bytes());
    }
    outcome.number
}

/// The words of the inputs, or 16 before all else: an input or the output that is
/// not of whole words, or a result that is not of 24 bytes.
fn words_of<const N: usize>(
    inputs: [&[u8]; N],
    output: usize,
    result: usize,
) -> Result<[Vec<u32>; N], Refusal> {
    let is_lent_whole = output.is_multiple_of(BYTES_PER_WORD) && result == RESULT_BYTES;
    let words: Option<Vec<_>> = inputs.into_iter().map(words::from_bytes).collect();
    let words = words.filter(|_| is_lent_whole).and_then(|words| words.try_into().ok());
    words.ok_or(Refusal::new(Fault::Bytes, 0))
}

/// "A short output last, as 15 at the first input's length."
fn enough_room(output: usize, needed: usize, inputs: &[&[u32]]) -> Result<(), Refusal> {
    if output / BYTES_PER_WORD < needed {
        let first = inputs.first().map_or(0, |input| input.len());
        return Err(Refusal::new(Fault::AnswerTable, first));
    }
    Ok(())
}

/// Puts the words at the front of the output, which has room for them and is zero.
fn put(output: &mut [u8], words: &[u32]) -> Outcome {
    let bytes = words::to_bytes(words);
    output[..bytes.len()].copy_from_slice(&bytes);
    Outcome { words: words.len() as u64, ..Outcome::default() }
}

#[cfg(test)]
mod tests {
    use super::*;

    /// What a tool leaves that writes its second input twice, or refuses an empty one
    /// with 14 at 3; so many bytes are lent.
    fn left(inputs: [&[u8]; 2], output: usize, result: usize) -> Left {
        let (mut output, mut result) = (vec![0xA5; output], vec![0x5A; result]);
        let number = run(inputs, &mut output, &mut result, |[_, second]| match second {
            [] => Err(Refusal::new(Fault::End, 3)),
            words => Ok([words, words].concat()),
        });
        Left { number, output, result }
    }

    fn told(left: &Left) -> (u64, u64, u64) {
        let Outcome { number, place, words } = left.outcome().expect("24 bytes were lent");
        assert_eq!(number, left.number);
        (number, place, words)
    }

    const FIRST: [u8; 12] = [9; 12];
    const SECOND: [u8; 4] = [1, 2, 3, 4];

    #[test]
    fn words_are_written_with_zeros_past_them() {
        let left = left([&FIRST, &SECOND], 12, 24);
        assert_eq!(told(&left), (0, 0, 2));
        assert_eq!(left.output, [1, 2, 3, 4, 1, 2, 3, 4, 0, 0, 0, 0]);
        assert_eq!(left.written(), [0x0403_0201; 2]);
    }

    /// At the first input's length, not at that of the one that is written.
    #[test]
    fn a_short_output_is_told_last() {
        for output in [0, 4] {
            let left = left([&FIRST, &SECOND], output, 24);
            assert_eq!(told(&left), (15, 3, 0));
            assert_eq!(left.output, vec![0; output]);
        }
        assert_eq!(told(&left([&[], &SECOND], 4, 24)), (15, 0, 0));
        assert_eq!(told(&left([&FIRST, &SECOND], 8, 24)), (0, 0, 2));
        assert_eq!(told(&left([&FIRST, &[]], 0, 24)), (14, 3, 0));
    }

    #[test]
    fn lengths_are_looked_at_first() {
        for (inputs, output) in [
            ([&FIRST[..11], &SECOND[..]], 8),
            ([&FIRST, &SECOND[..3]], 8),
            ([&FIRST, &SECOND], 9),
            ([&FIRST[..1], &[]], 2),
        ] {
            let left = left(inputs, output, 24);
            assert_eq!(told(&left), (16, 0, 0));
            assert_eq!(left.output, vec![0; output]);
        }
        for result in [0, 8, 23, 25, 40] {
            let left = left([&FIRST, &SECOND], 8, result);
            assert_eq!((left.number, left.outcome()), (16, None));
            assert_eq!((left.output, left.result), (vec![0; 8], vec![0; result]));
        }
    }
}
