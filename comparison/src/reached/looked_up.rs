//! What lookups show: what they give, where in a line they look, and how the
//! answer's line words were damaged before.

use super::wide_looked_up;
use reference::answer::Answer;
use reference::generate::answers::Query;
use reference::layout::Front;
use reference::words::{self, kinds, BYTES_PER_WORD};

/// What a lookup gives, and in what.
const GIVEN: [&str; 5] = [
    "none in bytes that are no whole answer",
    "none outside a whole answer",
    "yes",
    "no",
    "yes or no in an answer above 65,536 words",
];

/// Where it looks, in a line that begins late.
const AT: [&str; 5] = [
    "none at sample 0 of a line that begins late",
    "none just before a first sample",
    "yes or no at a first sample above 0",
    "yes or no at the last sample of a line that begins late",
    "none just after the last sample of a line that begins late",
];

/// What was done to a line's word before.
const STRUCK: [&str; 5] = [
    "none where a line's word has one of bits 27..24 set",
    "none where a line goes a sample past T",
    "none where a line goes further past T",
    "yes or no where a line's first sample was moved within T",
    "none where a line has no sample",
];

/// All labels.
pub fn labels() -> Vec<String> {
    let of_all = GIVEN.iter().chain(&AT).chain(&STRUCK).map(|text| label(text));
    of_all.chain(wide_looked_up::texts().map(|text| label(&text))).collect()
}

fn label(text: &str) -> String {
    format!("lookup: {text}")
}

/// An answer's bytes, and what they are.
pub struct LookedUp<'a> {
    /// The bytes.
    pub bytes: &'a [u8],
    /// The answer, if they are a whole one.
    pub whole: Option<Answer>,
    /// How a line's word was damaged, if one was: an index in [`STRUCK`].
    struck: Option<usize>,
    /// What is wrong with the answer's front, if nothing else is.
    front: Option<String>,
}

impl<'a> LookedUp<'a> {
    /// An answer as it was lent.
    pub fn lent(bytes: &'a [u8]) -> Self {
        let words = words::from_bytes(bytes).unwrap_or_default();
        let whole = Answer::read(&words);
        let front = wide_looked_up::beyond_limits(&words);
        LookedUp { bytes, whole, struck: None, front }
    }

    /// A damaged answer, beside what it was before.
    pub fn damaged(bytes: &'a [u8], before: &[u8]) -> Self {
        let both = words::from_bytes(before).zip(words::from_bytes(bytes));
        let (before, words) = both.unwrap_or_default();
        LookedUp {
            struck: struck_line(&before, &words),
            front: wide_looked_up::struck(&before, &words),
            ..LookedUp::lent(bytes)
        }
    }

    /// The labels of a lookup that gave this.
    pub fn shown(&self, asked: Query, found: u64) -> Vec<String> {
        let is_whole = self.whole.is_some();
        let mut shown = vec![match found {
            0 => GIVEN[usize::from(is_whole)],
            1 => GIVEN[2],
            _ => GIVEN[3],
        }];
        if found > 0 && self.bytes.len() > 65_536 * BYTES_PER_WORD {
            shown.push(GIVEN[4]);
        }
        if let Some(answer) = &self.whole {
            shown.extend(at(answer, asked));
        }
        let as_struck = self.struck.filter(|_| is_whole == (found > 0));
        shown.extend(as_struck.map(|index| STRUCK[index]));
        let in_wide = self.whole.as_ref().map(|whole| wide_looked_up::shown(whole, asked, found));
        let of_front = self.front.iter().filter(|_| found == 0).cloned();
        let of_wide = in_wide.into_iter().flatten().chain(of_front);
        shown.into_iter().map(label).chain(of_wide.map(|text| label(&text))).collect()
    }
}

/// Where a query looks, if it is for a place of a line that begins late.
fn at(answer: &Answer, (line, sample, place): Query) -> Vec<&'static str> {
    let line = usize::try_from(line).ok().and_then(|line| answer.lines.get(line));
    let Some(line) = line.filter(|line| line.first > 0 && place < answer.places as u64) else {
        return Vec::new();
    };
    let first = line.first as u64;
    let end = first + (line.verdicts.len() / answer.places) as u64;
    let samples = [0, first - 1, first, end - 1, end];
    AT.iter().zip(samples).filter(|(_, at)| *at == sample).map(|(text, _)| *text).collect()
}

/// How a line's word was struck, if nothing else was: an index in [`STRUCK`].
fn struck_line(before: &[u32], words: &[u32]) -> Option<usize> {
    if words.len() < before.len() {
        let empty = |&word: &u32| words::kind(word) == kinds::ANSWER_LINE && word & 0xFFF == 0;
        return words.iter().any(empty).then_some(4);
    }
    let mut changed = (0..before.len()).filter(|&index| before[index] != words[index]);
    let (at, None) = (changed.next()?, changed.next()) else {
        return None;
    };
    let is_line =
        [before[at], words[at]].iter().all(|&word| words::kind(word) == kinds::ANSWER_LINE);
    let same_length = (before[at] ^ words[at]) & 0xFFF == 0;
    (is_line && same_length && words.len() == before.len())
        .then(|| struck_word(Front::told(words).samples as u32, words[at]))
}

/// What is wrong with a line's word beside so many samples T.
fn struck_word(samples: u32, word: u32) -> usize {
    let end = words::field(word, 23, 12) + words::field(word, 11, 0);
    match end.checked_sub(samples) {
        _ if words::field(word, 27, 24) > 0 => 0,
        None | Some(0) => 3,
        Some(1) => 1,
        Some(_) => 2,
    }
}
