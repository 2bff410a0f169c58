//! What calls of tools have in common: a sheet that comes first, what is lent, and the
//! number; and how it is told what they show.

use reference::generate::tools::Given;
use reference::layout::{Front, Layout, MOST_PLACES};
use reference::tool::{self, Left, RESULT_BYTES};
use reference::words::{self, BYTES_PER_WORD};

/// The numbers of a sheet's own faults, those of narrow sheets, of wide ones, and of
/// wide ones whose places are within their limits.
pub const OWN: [u64; 14] = [2, 3, 4, 5, 6, 7, 8, 9, 10, 11, 12, 13, 14, 17];
pub const OF_NARROW: [u64; 13] = [2, 3, 4, 5, 6, 7, 8, 9, 10, 11, 12, 13, 14];
pub const OF_WIDE: [u64; 13] = [3, 4, 5, 6, 7, 8, 9, 10, 11, 12, 13, 14, 17];
pub const BEHIND_WIDE_HEAD: [u64; 12] = [3, 4, 5, 6, 7, 8, 9, 10, 11, 12, 13, 14];

/// What a call may show: its text, the numbers that a run must have seen it with, and
/// whether it is so.
pub type Shown<A> = (&'static str, &'static [u64], fn(&Called<A>) -> bool);

/// A call of a tool that was asked for something beside its sheet.
pub struct Called<A> {
    /// What it was asked for.
    pub asked: A,
    /// The number given back.
    pub number: u64,
    /// The sheet's words; none if its bytes are no whole words.
    pub words: Vec<u32>,
    needed: usize,
    given: Lengths,
}

/// The lengths in bytes of all that was handed over and lent.
struct Lengths {
    inputs: Vec<usize>,
    output: usize,
    result: usize,
}

impl<A> Called<A> {
    /// A call with what was given and what it left. What is written of a valid sheet is
    /// so many words longer than the sheet.
    pub fn new(asked: A, given: &Given, left: &Left, longer: isize) -> Self {
        let words = words::from_bytes(&given.inputs[0]).unwrap_or_default();
        let inputs = given.inputs.iter().map(Vec::len).collect();
        Called {
            asked,
            number: left.number,
            needed: words.len().saturating_add_signed(longer),
            words,
            given: Lengths { inputs, output: given.output, result: given.result },
        }
    }

    /// The sheet's layout.
    pub fn layout(&self) -> Layout {
        Layout::of(&self.words)
    }

    /// What the sheet's front tells.
    pub fn front(&self) -> Front {
        Front::told(&self.words)
    }

    /// The places that the sheet's front tells.
    pub fn places(&self) -> usize {
        self.front().places
    }

    /// Whether it is a wide sheet of more than 64 places.
    pub fn is_city(&self) -> bool {
        self.layout().is_wide() && self.places() > MOST_PLACES
    }

    /// Whether the sheet has no fault of its own.
    pub fn is_valid(&self) -> bool {
        tool::valid(&self.words).is_ok()
    }

    /// Whether two bytes are too few for the number of its words.
    pub fn is_long(&self) -> bool {
        self.words.len() > 65_536
    }

    /// The words of room.
    pub fn room(&self) -> usize {
        self.given.output / BYTES_PER_WORD
    }

    /// The bytes of the result.
    pub fn result(&self) -> usize {
        self.given.result
    }

    /// The words that are to be written of a valid sheet.
    pub fn needed(&self) -> usize {
        self.needed
    }

    /// Whether there is less room than is needed.
    pub fn is_short(&self) -> bool {
        self.room() < self.needed
    }

    /// Whether there is one word less than is needed.
    pub fn is_a_word_short(&self) -> bool {
        self.room() + 1 == self.needed
    }

    /// Whether there is room, and at least two words less than are needed.
    pub fn has_some_room(&self) -> bool {
        self.room() > 0 && self.room() + 1 < self.needed
    }

    /// Whether the lengths of inputs, output and result cannot be, in this order.
    pub fn wrong_lengths(&self) -> Vec<bool> {
        let Lengths { inputs, output, result } = &self.given;
        let is_odd = |length: &usize| !length.is_multiple_of(BYTES_PER_WORD);
        let of_words = inputs.iter().chain([output]).map(is_odd);
        of_words.chain([*result != RESULT_BYTES]).collect()
    }

    /// Whether one length alone cannot be, by its index in that order.
    pub fn is_wrong_alone(&self, index: usize) -> bool {
        let wrong = self.wrong_lengths();
        wrong[index] && wrong.iter().filter(|&&is_wrong| is_wrong).count() == 1
    }

    /// The labels of a call: its number, and all that it shows of what may be shown.
    pub fn shown<'a>(
        &'a self,
        tool: &'a str,
        texts: impl Iterator<Item = &'static Shown<A>> + 'a,
    ) -> impl Iterator<Item = String> + 'a
    where
        A: 'static,
    {
        let asked = texts.filter(|(_, numbers, _)| numbers.contains(&self.number));
        let texts = asked.filter(|(_, _, is_so)| is_so(self)).map(|(text, ..)| *text);
        let of_texts = texts.map(|text| label(tool, self.number, text));
        std::iter::once(number_label(tool, self.number)).chain(of_texts)
    }
}

/// The labels of a tool: its numbers, and what is shown with them.
pub fn labels<A: 'static>(
    tool: &'static str,
    numbers: impl Iterator<Item = u64>,
    texts: impl Iterator<Item = &'static Shown<A>>,
) -> impl Iterator<Item = String> {
    let of_texts = texts
        .flat_map(move |(text, numbers, _)| numbers.iter().map(move |&n| label(tool, n, text)));
    numbers.map(move |number| number_label(tool, number)).chain(of_texts)
}

/// The label of a tool's number.
pub fn number_label(tool: &str, number: u64) -> String {
    format!("{tool}, number {number}")
}

/// The label of what a call shows that gave back a number.
pub fn label(tool: &str, number: u64, text: &str) -> String {
    format!("{}: {text}", number_label(tool, number))
}
