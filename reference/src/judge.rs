//! The engine as a host reaches it: over bytes that the host lends.

use crate::answer;
use crate::distance::Distances;
use crate::evaluation::Evaluation;
use crate::numbers::{self, BYTES_PER_NUMBER};
use crate::refusal::{Fault, Refusal};
use crate::sheet;
use crate::words::{self, BYTES_PER_WORD};

/// The bytes of one entry of the distance table.
pub const BYTES_PER_DISTANCE: usize = BYTES_PER_NUMBER;

/// The bytes of a result: five numbers of eight bytes each.
pub const RESULT_BYTES: usize = 5 * BYTES_PER_NUMBER;

/// "The result holds: number and place (both 0 on acceptance), words written,
/// rounds, and the count of yes verdicts."
#[derive(Clone, Copy, Debug, Default, PartialEq, Eq)]
pub struct Outcome {
    /// The refusal's number, 0 on acceptance.
    pub number: u64,
    /// The refusal's place, 0 on acceptance.
    pub place: u64,
    /// The words of the answer.
    pub words: u64,
    /// The greatest rounds of a surround.
    pub rounds: u64,
    /// The count of yes verdicts.
    pub yes: u64,
}

impl Outcome {
    /// The result's bytes: "five numbers, eight bytes each in the order above",
    /// lowest byte first.
    pub fn to_bytes(self) -> [u8; RESULT_BYTES] {
        let mut bytes = [0; RESULT_BYTES];
        numbers::put(&mut bytes, [self.number, self.place, self.words, self.rounds, self.yes]);
        bytes
    }

    /// The result that bytes hold, if they are 40.
    pub fn from_bytes(bytes: &[u8]) -> Option<Outcome> {
        let [number, place, words, rounds, yes] = numbers::read(bytes)?;
        Some(Outcome { number, place, words, rounds, yes })
    }
}

/// "A refusal has words, rounds and yes count 0."
impl From<Refusal> for Outcome {
    fn from(refusal: Refusal) -> Self {
        Outcome { number: refusal.number(), place: refusal.place as u64, ..Outcome::default() }
    }
}

/// Judges a sheet with the evaluator `E` and gives the number, 0 on acceptance.
///
/// Every lent byte is set, whatever the outcome: on acceptance the answer with
/// zeros after its end and the distances with zeros beyond; on a refusal "the
/// whole answer and the whole distance table" zero; and the result's 40 bytes,
/// which "are all zero if the lent length isn't 40".
pub fn judge<E: Evaluation>(
    sheet: &[u8],
    distances: &mut [u8],
    answer: &mut [u8],
    result: &mut [u8],
) -> u64 {
    distances.fill(0);
    answer.fill(0);
    result.fill(0);
    let outcome = words_of(sheet, distances, answer, result)
        .and_then(|words| accept::<E>(&words, distances, answer))
        .unwrap_or_else(Outcome::from);
    if result.len() == RESULT_BYTES {
        result.copy_from_slice(&outcome.to_bytes());
    }
    outcome.number
}

/// The sheet's words, or refusal 16 "before all else": "sheet or answer not a
/// multiple of 4, distances not of 8, result not 40; place 0".
fn words_of(
    sheet: &[u8],
    distances: &[u8],
    answer: &[u8],
    result: &[u8],
) -> Result<Vec<u32>, Refusal> {
    let whole = answer.len().is_multiple_of(BYTES_PER_WORD)
        && distances.len().is_multiple_of(BYTES_PER_DISTANCE)
        && result.len() == RESULT_BYTES;
    let words = words::from_bytes(sheet).filter(|_| whole);
    words.ok_or(Refusal::new(Fault::Bytes, 0))
}

/// Checks, evaluates and answers; the lent bytes are zero and stay so on a
/// refusal. Refusal 15 comes last: "fewer words than needed; place the sheet's
/// length".
fn accept<E: Evaluation>(
    words: &[u32],
    lent_distances: &mut [u8],
    lent_answer: &mut [u8],
) -> Result<Outcome, Refusal> {
    let entries = lent_distances.len() / BYTES_PER_DISTANCE;
    let sheet = sheet::check(words, entries)?;
    let needed = answer::needed(&sheet);
    if lent_answer.len() / BYTES_PER_WORD < needed {
        return Err(Refusal::new(Fault::AnswerTable, words.len()));
    }
    let distances = Distances::new(sheet.head.places, &sheet.roads);
    let evaluation = E::evaluate(&sheet, &distances);
    // "The lent distance table (64-bit) holds n·n distances row by row."
    numbers::put(lent_distances, distances.entries());
    let yes = answer::write(&sheet, &evaluation, lent_answer);
    Ok(Outcome { words: needed as u64, rounds: evaluation.rounds(), yes, ..Outcome::default() })
}
