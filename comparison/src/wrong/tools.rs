//! Tools that are right, but for what they change in what is told and written, beside
//! an engine that is right.

use super::SEEDS;
use crate::compare::Comparison;
use crate::tools::{Tool, Tools, Written};
use crate::Implementation;
use reference::generate::random::Random;
use reference::tool::Outcome;
use reference::words::{self, BYTES_PER_WORD};

/// What a tool is called with.
pub struct Call {
    pub tool: Tool,
    /// The words of each input, none where its bytes are no whole words.
    pub inputs: Vec<Vec<u32>>,
    pub room: usize,
}

/// What a tool tells and writes: other than this all is zero.
pub struct Told {
    pub outcome: Outcome,
    pub words: Vec<u32>,
}

impl Told {
    /// Tells a refusal instead.
    pub fn refuse(&mut self, number: u64, place: usize) {
        self.outcome = Outcome { number, place: place as u64, words: 0 };
        self.words.clear();
    }

    /// Writes words instead, as far as there is room, and tells how many.
    pub fn write(&mut self, words: Vec<u32>) {
        self.outcome = Outcome { words: words.len() as u64, ..Outcome::default() };
        self.words = words;
    }
}

/// Right, but for what it changes in what is told and written.
struct Mistaken<F>(F);

/// The tools of a mistake.
pub fn mistaken(mistake: impl Fn(Call, &mut Told)) -> impl Tools {
    Mistaken(mistake)
}

impl<F: Fn(Call, &mut Told)> Tools for Mistaken<F> {
    fn run(&self, tool: Tool, inputs: &[&[u8]], left: Written) -> u64 {
        let Written { output, result } = left;
        let lent = Written { output: &mut *output, result: &mut *result };
        let number = Implementation.run(tool, inputs, lent);
        let is_lent = Outcome::from_bytes(result);
        let outcome = is_lent.unwrap_or(Outcome { number, ..Outcome::default() });
        let written = words::first_words(output, outcome.words as usize);
        let inputs = inputs.iter().map(|bytes| words::from_bytes(bytes).unwrap_or_default());
        let call = Call { tool, inputs: inputs.collect(), room: output.len() / BYTES_PER_WORD };
        let mut told = Told { outcome, words: written };
        (self.0)(call, &mut told);
        output.fill(0);
        let bytes = words::to_bytes(&told.words);
        output.iter_mut().zip(bytes).for_each(|(place, byte)| *place = byte);
        if is_lent.is_some() {
            result.copy_from_slice(&told.outcome.to_bytes());
        }
        told.outcome.number
    }
}

/// Some tools wrong, and all others right.
pub struct Only<'a> {
    /// Which of them are wrong.
    pub are_wrong: fn(Tool) -> bool,
    /// The wrong ones.
    pub tools: &'a dyn Tools,
}

impl Tools for Only<'_> {
    fn run(&self, tool: Tool, inputs: &[&[u8]], left: Written) -> u64 {
        let tools = if (self.are_wrong)(tool) { self.tools } else { &Implementation };
        tools.run(tool, inputs, left)
    }
}

/// The seed, up to so many, at which the comparison finds a difference in the tools.
/// Nothing but tools is tried, which takes less time.
pub fn caught_within(tools: &dyn Tools, seeds: u64) -> Option<u64> {
    let mut comparison = Comparison::new(&Implementation, tools, None);
    (1..=seeds).find(|&seed| comparison.tools_of(seed).is_err())
}

/// Demands that the comparison finds a difference in the tools.
#[track_caller]
pub fn assert_caught(tools: &dyn Tools) {
    assert!(caught_within(tools, SEEDS).is_some());
}

/// Demands that it finds one on a sheet of a million words.
#[track_caller]
pub fn assert_caught_on_largest(tools: &dyn Tools) {
    let mut comparison = Comparison::new(&Implementation, tools, None);
    assert!(comparison.largest(&mut Random::new(1)).is_err());
}
