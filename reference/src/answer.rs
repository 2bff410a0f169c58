//! The answer: its size, its words, and the reading of one.

use crate::evaluation::Evaluation;
use crate::layout::{Front, Layout};
use crate::margin::Verdict;
use crate::sheet::{Extent, Head, Sheet, MOST_LINES, MOST_SAMPLES};
use crate::words::{self, kinds};

/// How many words the answer to a sheet needs: its front, for each line its
/// word and its verdicts, and the end.
pub fn needed(sheet: &Sheet) -> usize {
    let line = |extent: Extent| 1 + extent.length() * sheet.head.places;
    let lines: usize = sheet.lines.iter().map(|held| line(held.extent)).sum();
    sheet.head.layout.front_words() + lines + 1
}

/// Writes the answer at the front of the lent bytes, which have room for it,
/// and gives the count of yes verdicts.
pub fn write<E: Evaluation>(sheet: &Sheet, evaluation: &E, bytes: &mut [u8]) -> u64 {
    let mut writer = Writer { bytes, words: 0 };
    let mut yes_count = 0;
    front(sheet).words(kinds::ANSWER_HEAD).into_iter().for_each(|word| writer.push(word));
    for (number, line) in sheet.lines.iter().enumerate() {
        writer.push(line_word(line.extent));
        for sample in line.extent.samples() {
            for place in 0..sheet.head.places {
                let verdict = evaluation.verdict(number, sample, place);
                yes_count += u64::from(verdict.yes);
                writer.push(verdict.to_word());
            }
        }
    }
    writer.push(words::word(kinds::END, writer.words as u32));
    yes_count
}

/// "Kind 13: bits 27..20 n, 19..12 line count, 11..0 T." That of a wide sheet
/// "starts with the same kind 10 word, then kind 13 with places 0".
fn front(sheet: &Sheet) -> Front {
    let Head { layout, places, samples, .. } = sheet.head;
    Front { layout, places, middle: sheet.lines.len(), samples }
}

/// "For each line kind 14": the first sample in bits 23..12, the length in bits
/// 11..0, the rest zero.
fn line_word(extent: Extent) -> u32 {
    words::word(kinds::ANSWER_LINE, (extent.first << 12 | extent.length()) as u32)
}

struct Writer<'a> {
    bytes: &'a mut [u8],
    words: usize,
}

impl Writer<'_> {
    fn push(&mut self, word: u32) {
        words::put(self.bytes, self.words, word);
        self.words += 1;
    }
}

/// A whole answer, read back.
#[derive(Clone, Debug, PartialEq, Eq)]
pub struct Answer {
    /// How it is laid out, as its sheet is.
    pub layout: Layout,
    /// The number of places, n.
    pub places: usize,
    /// The lines.
    pub lines: Vec<AnswerLine>,
}

/// A line of an answer.
#[derive(Clone, Debug, PartialEq, Eq)]
pub struct AnswerLine {
    /// The first sample that it has verdicts for.
    pub first: usize,
    /// Its verdicts, "sample outermost, then place".
    pub verdicts: Vec<Verdict>,
}

impl Answer {
    /// Reads the words of a lent answer, if they are "a whole answer as laid
    /// out (sizes in the head's limits; 1 to 64 lines; lengths 1 to T; kind 9
    /// not negative, kind 10 not positive, payload never -2^27; only zeros
    /// after the end)", and "first plus length is at most T".
    pub fn read(words: &[u32]) -> Option<Answer> {
        let front = Front::told(words);
        let Front { layout, places, middle: lines, samples } = front;
        let laid_out = front.is_laid_out(words, kinds::ANSWER_HEAD)
            && front.has_places_in_limits()
            && (1..=MOST_LINES).contains(&lines)
            && (1..=MOST_SAMPLES).contains(&samples);
        if !laid_out {
            return None;
        }
        let mut rest = &words[layout.front_words()..];
        let lines =
            (0..lines).map(|_| read_line(&mut rest, places, samples)).collect::<Option<_>>()?;
        read_end(rest, words.len() - rest.len())?;
        Some(Answer { layout, places, lines })
    }

    /// The verdict of a line at a sample of the recording and a place, if the
    /// answer has it.
    pub fn verdict(&self, line: u64, sample: u64, place: u64) -> Option<Verdict> {
        let line = self.lines.get(usize::try_from(line).ok()?)?;
        let since_first = usize::try_from(sample).ok()?.checked_sub(line.first)?;
        let row = line.verdicts.chunks(self.places).nth(since_first)?;
        row.get(usize::try_from(place).ok()?).copied()
    }

    /// A line's samples, each with its verdicts at all places.
    pub fn rows<'a>(&self, line: &'a AnswerLine) -> impl Iterator<Item = (usize, &'a [Verdict])> {
        (line.first..).zip(line.verdicts.chunks(self.places))
    }
}

/// A line's word, whose length is at least 1 and whose samples are samples of
/// the recording, "then its verdicts".
fn read_line(rest: &mut &[u32], places: usize, samples: usize) -> Option<AnswerLine> {
    let (&word, after) = rest.split_first()?;
    let first = words::field(word, 23, 12) as usize;
    let length = words::field(word, 11, 0) as usize;
    let laid_out = words::kind(word) == kinds::ANSWER_LINE
        && words::field(word, 27, 24) == 0
        && length >= 1
        && first + length <= samples;
    if !laid_out {
        return None;
    }
    let (verdicts, after) = after.split_at_checked(length * places)?;
    *rest = after;
    let verdicts = verdicts.iter().copied().map(Verdict::from_word).collect::<Option<_>>()?;
    Some(AnswerLine { first, verdicts })
}

/// The end, its payload "the count of words before it", and "only zeros after
/// the end".
fn read_end(rest: &[u32], before: usize) -> Option<()> {
    let (&word, tail) = rest.split_first()?;
    let is_end = word == words::word(kinds::END, before as u32);
    (is_end && tail.iter().all(|&word| word == 0)).then_some(())
}
