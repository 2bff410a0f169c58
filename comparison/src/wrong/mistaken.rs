//! The engine of a mistake: right, but for the number and the place that it tells.

use crate::{Engine, Filled, Implementation};
use reference::judge::{Outcome, BYTES_PER_DISTANCE};
use reference::layout::{Front, ENOUGH_DISTANCES};
use reference::sheet::check;
use reference::words::{self, kinds, BYTES_PER_WORD};

/// What such an engine is given.
pub struct Given {
    pub words: Vec<u32>,
    pub entries: usize,
    pub answer_words: usize,
}

impl Given {
    pub fn front(&self) -> Front {
        Front::told(&self.words)
    }

    pub fn lines_up_to(&self, place: u64) -> usize {
        let before = self.words.iter().take(place as usize + 1);
        before.filter(|&&word| words::kind(word) == kinds::LINE).count()
    }

    /// The code of the line word at a place.
    pub fn code_at(&self, place: u64) -> Option<u32> {
        let word = self.words.get(place as usize).filter(|&&word| words::kind(word) == kinds::LINE);
        word.map(|&word| words::field(word, 27, 20))
    }

    /// The upper bound of the line at a place.
    pub fn upper_at(&self, place: u64) -> Option<u32> {
        self.words.get(place as usize + 2).map(|&word| words::payload(word))
    }

    /// Whether the sheet is valid and its answer needs more words than are lent.
    pub fn is_short(&self) -> bool {
        let sheet = check(&self.words, ENOUGH_DISTANCES);
        sheet.is_ok_and(|sheet| self.answer_words < reference::answer::needed(&sheet))
    }
}

/// Right, but for number and place, which it changes. What it turns back, though it
/// is to be accepted, it turns back as every refusal is: with zeros all over.
struct Mistaken<F>(F);

/// As the engine of a mistake.
pub fn mistaken(mistake: impl Fn(&Given, &mut Outcome)) -> impl Engine {
    Mistaken(mistake)
}

impl<F: Fn(&Given, &mut Outcome)> Engine for Mistaken<F> {
    fn judge(&self, sheet: &[u8], left: Filled) -> u64 {
        let Filled { distances, answer, result } = left;
        let given = Given {
            words: words::from_bytes(sheet).unwrap_or_default(),
            entries: distances.len() / BYTES_PER_DISTANCE,
            answer_words: answer.len() / BYTES_PER_WORD,
        };
        let lent =
            Filled { distances: &mut *distances, answer: &mut *answer, result: &mut *result };
        let number = Implementation.judge(sheet, lent);
        let is_lent = Outcome::from_bytes(result);
        let mut outcome = is_lent.unwrap_or(Outcome { number, ..Outcome::default() });
        (self.0)(&given, &mut outcome);
        if outcome.number != 0 {
            let Outcome { number, place, .. } = outcome;
            outcome = Outcome { number, place, ..Outcome::default() };
            distances.fill(0);
            answer.fill(0);
        }
        if is_lent.is_some() {
            result.copy_from_slice(&outcome.to_bytes());
        }
        outcome.number
    }

    fn lookup(&self, answer: &[u8], line: u64, sample: u64, place: u64) -> u64 {
        Implementation.lookup(answer, line, sample, place)
    }
}
