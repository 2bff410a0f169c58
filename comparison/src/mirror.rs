//! Time turned round, on the engine alone: a table in which looking ahead and
//! looking back are exchanged, on the recording read backwards, has the answer
//! read backwards.

use crate::difference::{demand, Checked, Difference};
use crate::judging::{answered, Answered};
use crate::reached::Reached;
use crate::Engine;
use reference::answer::{Answer, AnswerLine};
use reference::generate::random::Random;
use reference::generate::valid;
use reference::layout::Front;
use reference::words::{self, kinds};

/// The codes that look ahead, each with the one that looks back as far.
const EXCHANGED: [(u32, u32); 3] = [(5, 12), (9, 13), (10, 14)];

/// What a run must have turned round.
pub fn labels() -> impl Iterator<Item = String> {
    EXCHANGED.iter().flat_map(|&(ahead, back)| [label(ahead), label(back)])
}

fn label(code: u32) -> String {
    format!("time turned round: code {code}")
}

/// Judges a random sheet and the same sheet with time turned round.
pub fn check(engine: &dyn Engine, random: &mut Random, reached: &mut Reached) -> Checked {
    let words = valid::sheet_or_city(random, 16);
    let turned = turned(&words);
    let one = answered(engine, random, &words)?;
    let other = answered(engine, random, &turned)?;
    mirrored(Front::told(&words).samples, &one, &other).map_err(|difference| {
        let difference = difference.on("one sheet", &words::to_bytes(&words));
        difference.on("the sheet turned round", &words::to_bytes(&turned))
    })?;
    reached.count_layout("time turned round", &words);
    let exchanged = |code: &u32| EXCHANGED.iter().any(|pair| pair.0 == *code || pair.1 == *code);
    for code in words::line_codes(&words).into_iter().filter(exchanged) {
        reached.count(&label(code));
    }
    Ok(())
}

/// The words of a valid sheet with time turned round: its samples, which are its
/// words of kind 4, from the last to the first, and its codes exchanged.
fn turned(words: &[u32]) -> Vec<u32> {
    let front = Front::told(words);
    let row = front.places * front.middle;
    let samples = words::indices(words, |kind| kind == kinds::SAMPLE);
    let rows = samples.chunks(row).rev();
    let mut turned: Vec<u32> = words.iter().map(|&word| exchanged(word)).collect();
    for (&to, &from) in samples.iter().zip(rows.flatten()) {
        turned[to] = words[from];
    }
    turned
}

/// A line word with its code exchanged, any other word as it is.
fn exchanged(word: u32) -> u32 {
    let both_ways = EXCHANGED.iter().flat_map(|&(ahead, back)| [(ahead, back), (back, ahead)]);
    let code = words::field(word, 27, 20);
    let other = both_ways.into_iter().find(|pair| pair.0 == code);
    match other {
        Some((_, other)) if words::kind(word) == kinds::LINE => words::with_code(word, other),
        _ => word,
    }
}

/// Demands that what is said to one is what is said to the other, read backwards:
/// words, rounds and yes count are the same.
fn mirrored(samples: usize, one: &Answered, other: &Answered) -> Checked {
    let outcomes = (one.outcome, other.outcome);
    demand(outcomes.0 == outcomes.1, || format!("unlike results: {outcomes:?}"))?;
    let (one, other) = (&one.answer, &other.answer);
    let backwards = one.lines.iter().map(|line| backwards(samples, one, line));
    match backwards.zip(&other.lines).position(|(line, other)| line != *other) {
        Some(line) => Err(Difference::new(format!("line {line} is not the same read backwards"))),
        None => Ok(()),
    }
}

/// A line read from the recording's end.
fn backwards(samples: usize, answer: &Answer, line: &AnswerLine) -> AnswerLine {
    let rows = line.verdicts.chunks(answer.places);
    AnswerLine {
        first: samples - line.first - rows.len(),
        verdicts: rows.rev().flatten().copied().collect(),
    }
}

#[cfg(test)]
mod tests {
    use super::*;
    use reference::builder::SheetBuilder;

    /// Two places and two signals: rows change their order, not what is in them.
    #[test]
    fn samples_and_codes_are_turned() {
        let sheet = |numbers: [i32; 8]| SheetBuilder::new(2, 2, 2).road(0, 1, 5).samples(&numbers);
        let table = |sheet: SheetBuilder, codes: [u32; 3]| {
            sheet
                .at_least(0, 5)
                .bounded(codes[0], 0, 0, (0, 1))
                .line(codes[1], 0, 0)
                .bounded(codes[2], 0, 0, (5, 9))
                .end()
        };
        let words = table(sheet([1, 2, 3, 4, 5, 6, 7, 8]), [12, 3, 6]);
        let expected = table(sheet([5, 6, 7, 8, 1, 2, 3, 4]), [5, 3, 6]);
        assert_eq!(turned(&words), expected);
        assert_eq!(turned(&expected), words);
    }
}
