//! Late corrections: a valid sheet with samples replaced by what stations sent later.
//!
//! A list is read three times, each time for one thing: whether every word is right,
//! whether two corrections clash, and what is to be written. All that is kept of it is
//! a value for each sample and revision.

use crate::refusal::{Fault, Refusal};
use crate::sheet::{Head, Sheet};
use crate::tool;
use crate::words::{self, field, kind, kinds};
use std::collections::BTreeMap;

/// "A correction is three words."
pub const WORDS_PER_CORRECTION: usize = 3;

/// What a correction's words tell, within their limits or not.
#[derive(Clone, Copy, Debug, PartialEq, Eq)]
pub struct Correction {
    /// The revision, of which the highest counts.
    pub revision: u32,
    /// The sample that it is aimed at.
    pub aim: Aim,
    /// The number that was meant to be sampled.
    pub value: i32,
}

/// A sample of a sheet: the place, the time and the signal it was taken at.
#[derive(Clone, Copy, Debug, PartialEq, Eq, PartialOrd, Ord)]
pub struct Aim {
    /// The signal.
    pub signal: u32,
    /// The time.
    pub time: u32,
    /// The place.
    pub place: u32,
}

impl Aim {
    /// Where the sample stands among all of a sheet with this head.
    pub fn index(&self, head: &Head) -> usize {
        head.reading_index(self.time as usize, self.place as usize, self.signal as usize)
    }

    /// Where it stands among the words of a sheet.
    pub fn word_index(&self, sheet: &Sheet) -> usize {
        sheet.first_sample() + self.index(&sheet.head)
    }
}

impl Correction {
    /// What three words tell: "revision in bits 27..20, signal 19..12, time 11..0",
    /// "place in bits 15..0", and the value.
    pub fn told(words: [u32; WORDS_PER_CORRECTION]) -> Self {
        let [first, second, value] = words;
        Correction {
            revision: field(first, 27, 20),
            aim: Aim {
                signal: field(first, 19, 12),
                time: field(first, 11, 0),
                place: field(second, 15, 0),
            },
            value: words::signed27(value),
        }
    }

    /// The three words that tell it.
    pub fn words(&self) -> [u32; WORDS_PER_CORRECTION] {
        let Correction { revision, aim, value } = *self;
        [
            words::word(kinds::CORRECTION, revision << 20 | aim.signal << 12 | aim.time),
            words::word(kinds::CORRECTED_PLACE, aim.place),
            words::word(kinds::SAMPLE, words::sample_payload(value)),
        ]
    }
}

/// What the corrections of a list tell, right or wrong, one that is cut short left out.
pub fn told(list: &[u32]) -> impl Iterator<Item = Correction> + '_ {
    list.as_chunks().0.iter().map(|&words| Correction::told(words))
}

/// The words of a list.
pub fn list(corrections: &[Correction]) -> Vec<u32> {
    corrections.iter().flat_map(Correction::words).collect()
}

/// Writes a sheet with samples replaced and gives the number, 0 if it is written.
pub fn correct_sheet(
    sheet: &[u8],
    corrections: &[u8],
    output: &mut [u8],
    result: &mut [u8],
) -> u64 {
    tool::run([sheet, corrections], output, result, |[words, list]| corrected(words, list))
}

/// The words of a valid sheet "with each corrected sample replaced".
pub fn corrected(words: &[u32], list: &[u32]) -> Result<Vec<u32>, Refusal> {
    let sheet = tool::valid(words)?;
    if let Some(place) = first_fault(list, &sheet.head) {
        return Err(Refusal::new(Fault::Correction, place));
    }
    let values = values(list)?;
    Ok(replaced(words, &sheet, &values))
}

/// The index of the first word of a list that is faulty, its length if its last
/// correction has a word missing.
pub fn first_fault(list: &[u32], head: &Head) -> Option<usize> {
    let is_faulty = |&at: &usize| !is_right(at % WORDS_PER_CORRECTION, list[at], head);
    let is_cut = !list.len().is_multiple_of(WORDS_PER_CORRECTION);
    (0..list.len()).find(is_faulty).or(is_cut.then_some(list.len()))
}

/// Whether a word may stand where it does in a correction, of which the first tells
/// "revision 1 to 255" and the last is laid out as a sample. What it is aimed at must
/// be in the sheet.
fn is_right(at: usize, word: u32, head: &Head) -> bool {
    let is_below = |number: u32, count: usize| (number as usize) < count;
    match at {
        0 => {
            kind(word) == kinds::CORRECTION
                && field(word, 27, 20) >= 1
                && is_below(field(word, 19, 12), head.signals)
                && is_below(field(word, 11, 0), head.samples)
        }
        1 => {
            kind(word) == kinds::CORRECTED_PLACE
                && field(word, 27, 16) == 0
                && is_below(field(word, 15, 0), head.places)
        }
        _ => words::is_sample(word),
    }
}

/// What is sent for each sample in each of its revisions. They are ordered: of one
/// sample the highest revision is the last.
type Values = BTreeMap<(Aim, u32), i32>;

/// The values of a list without a faulty word, or the earliest correction that has
/// another value than one before it of the same sample and revision. Up to there all
/// of them have the same, so that it is enough to keep the first.
fn values(list: &[u32]) -> Result<Values, Refusal> {
    let mut values = Values::new();
    for (at, Correction { revision, aim, value }) in told(list).enumerate() {
        let first = *values.entry((aim, revision)).or_insert(value);
        if first != value {
            return Err(Refusal::new(Fault::Clash, at * WORDS_PER_CORRECTION));
        }
    }
    Ok(values)
}

/// "For one sample the highest revision counts; all other words are the sheet's."
/// Every revision is written, each over those below it.
fn replaced(words: &[u32], sheet: &Sheet, values: &Values) -> Vec<u32> {
    let mut words = words.to_vec();
    for ((aim, _), &value) in values {
        let sample = words::word(kinds::SAMPLE, words::sample_payload(value));
        words[aim.word_index(sheet)] = sample;
    }
    words
}
