//! Where a refusal strikes: in how large a sheet, how far behind in it, just
//! beyond which limit, and beside what else that would be refused later.

use super::extents::{AHEAD, BACK};
use reference::answer;
use reference::generate::Case;
use reference::judge::BYTES_PER_DISTANCE;
use reference::layout::{Front, Pair, ENOUGH_DISTANCES, MOST_PLACES};
use reference::sheet::{check, MOST_LINES};
use reference::sheet::{MOST_SAMPLES, MOST_SIGNALS};
use reference::words::{self, kinds, BYTES_PER_WORD};

/// A setting: its text, the numbers that a run must have seen in it, and whether
/// a refused case is one.
type Setting = (&'static str, &'static [u64], fn(&Struck) -> bool);

/// Numbers of faults behind a right head.
const BEHIND_HEAD: [u64; 12] = [4, 5, 6, 7, 8, 9, 10, 11, 12, 13, 14, 15];

const SETTINGS: [Setting; 14] = [
    ("40 places or more", &BEHIND_HEAD, |struck| struck.places() >= 40),
    ("above 8 samples", &BEHIND_HEAD, |struck| struck.samples() > 8),
    ("place above 255", &BEHIND_HEAD, |struck| struck.place > 255),
    ("place above 65,535", &[10, 11, 12, 13, 14, 15], |struck| struck.place > 65_535),
    ("after the 12th line", &[11, 12, 13, 14], |struck| struck.lines() > 12),
    ("in the 64th line", &[11, 12, 13], |struck| struck.lines() == MOST_LINES),
    ("place 64 of 64", &[5], |struck| struck.is_second_place_64()),
    ("signal 16 of 16", &[11], |struck| struck.is_signal_16()),
    ("1,024 ahead in 1,024 samples", &[13], |struck| struck.is_far_1024(&AHEAD)),
    ("1,024 back in 1,024 samples", &[13], |struck| struck.is_far_1024(&BACK)),
    ("a faulty sheet besides", &[1, 16], |struck| struck.is_faulty_besides()),
    ("a short answer besides", &[1, 16], |struck| struck.is_short_besides()),
    ("too few distances besides", &[16], |struck| struck.has_few_distances()),
    ("an odd table of too few distances", &[16], |struck| {
        struck.has_few_distances() && !struck.case.distances.is_multiple_of(BYTES_PER_DISTANCE)
    }),
];

/// All labels, each a number and a text.
pub fn labels() -> impl Iterator<Item = (u64, &'static str)> {
    SETTINGS.iter().flat_map(|(text, numbers, _)| numbers.iter().map(|&number| (number, *text)))
}

/// The texts of the labels that a refused case has.
pub fn shown(struck: &Struck, number: u64) -> Vec<&'static str> {
    let asked = SETTINGS.iter().filter(|(_, numbers, _)| numbers.contains(&number));
    asked.filter(|(_, _, is_so)| is_so(struck)).map(|(text, ..)| *text).collect()
}

/// A refused case.
pub struct Struck<'a> {
    /// The sheet's words; none if its bytes are no whole words.
    pub words: &'a [u32],
    /// What was lent.
    pub case: &'a Case,
    /// The place that was told.
    pub place: usize,
}

impl Struck<'_> {
    /// What the sheet's front tells.
    pub fn front(&self) -> Front {
        Front::told(self.words)
    }

    fn places(&self) -> usize {
        self.front().places
    }

    fn signals(&self) -> usize {
        self.front().middle
    }

    fn samples(&self) -> usize {
        self.front().samples
    }

    /// The word at the place, or one that says nothing.
    pub fn word(&self) -> u32 {
        self.words.get(self.place).copied().unwrap_or(0)
    }

    /// How many lines begin at the place or before it.
    fn lines(&self) -> usize {
        let end = self.words.len().min(self.place + 1);
        words::indices(&self.words[..end], |kind| kind == kinds::LINE).len()
    }

    fn is_second_place_64(&self) -> bool {
        let Pair { first, second, .. } = self.front().layout.pair(self.word());
        self.places() == MOST_PLACES && first < 64 && second == 64
    }

    fn is_signal_16(&self) -> bool {
        let is_atom = matches!(words::field(self.word(), 27, 20), 1 | 2);
        self.signals() == MOST_SIGNALS && is_atom && words::field(self.word(), 19, 10) == 16
    }

    /// The upper bound stands two words behind its line word.
    fn is_far_1024(&self, codes: &[u32]) -> bool {
        let upper = self.words.get(self.place + 2);
        let is_of_code = codes.contains(&words::field(self.word(), 27, 20));
        let is_1024 = upper == Some(&words::word(kinds::UPPER, 1024));
        self.samples() == MOST_SAMPLES && is_of_code && is_1024
    }

    fn is_faulty_besides(&self) -> bool {
        !self.words.is_empty() && check(self.words, ENOUGH_DISTANCES).is_err()
    }

    /// Whether it would be refused for its answer, were it not for anything else.
    pub fn is_short_besides(&self) -> bool {
        let lent = self.case.answer / BYTES_PER_WORD;
        check(self.words, ENOUGH_DISTANCES).is_ok_and(|sheet| lent < answer::needed(&sheet))
    }

    fn has_few_distances(&self) -> bool {
        self.case.distances / BYTES_PER_DISTANCE < self.front().distances_needed()
    }
}
