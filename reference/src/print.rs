//! The printing program's text.

use crate::answer::Answer;
use crate::evaluation::Evaluation;
use crate::judge::{judge, Outcome, BYTES_PER_DISTANCE, RESULT_BYTES};
use crate::layout::DISTANCE_ENTRIES;
use crate::margin::{Margin, Verdict};
use crate::refusal::{Fault, Refusal};
use crate::words::{self, BYTES_PER_WORD};
use std::fmt::Write;

/// The most bytes the program takes.
pub const MOST_BYTES: usize = 32_768;

/// The words of the answer that the program lends.
pub const ANSWER_WORDS: usize = 16_384;

/// What the printing program prints for its input, every row ended by a
/// newline: "first row: words, rounds, yes count; then line, sample, and
/// verdict and margin for each place; infinities as +inf, -inf; last the count
/// of verdict rows; a refusal prints one row `refused`, number, place". Rows
/// "keep the recording's own sample numbers".
pub fn print<E: Evaluation>(input: &[u8]) -> String {
    // A length that is no multiple of 4 the judge refuses with the same number.
    if input.len() > MOST_BYTES {
        return refused(Refusal::new(Fault::Bytes, 0).into());
    }
    let mut distances = vec![0; DISTANCE_ENTRIES * BYTES_PER_DISTANCE];
    let mut answer = vec![0; ANSWER_WORDS * BYTES_PER_WORD];
    let mut result = [0; RESULT_BYTES];
    judge::<E>(input, &mut distances, &mut answer, &mut result);
    let outcome = Outcome::from_bytes(&result).expect("a result has 40 bytes");
    if outcome.number != 0 {
        return refused(outcome);
    }
    let answer = words::from_bytes(&answer).and_then(|words| Answer::read(&words));
    accepted(&outcome, &answer.expect("acceptance has a whole answer"))
}

fn refused(outcome: Outcome) -> String {
    format!("refused {} {}\n", outcome.number, outcome.place)
}

fn accepted(outcome: &Outcome, answer: &Answer) -> String {
    let Outcome { words, rounds, yes, .. } = outcome;
    let mut text = format!("accepted {words} {rounds} {yes}\n");
    let mut rows = 0;
    for (line, held) in answer.lines.iter().enumerate() {
        for (sample, row) in answer.rows(held) {
            let columns: String = row.iter().map(column).collect();
            push(&mut text, format_args!("{line} {sample}{columns}\n"));
            rows += 1;
        }
    }
    push(&mut text, format_args!("end {rows}\n"));
    text
}

/// A verdict and its margin, led by a space.
fn column(verdict: &Verdict) -> String {
    let word = if verdict.yes { "yes" } else { "no" };
    match verdict.margin {
        Margin::MinusInfinity => format!(" {word} -inf"),
        Margin::Finite(number) => format!(" {word} {number}"),
        Margin::PlusInfinity => format!(" {word} +inf"),
    }
}

fn push(text: &mut String, row: std::fmt::Arguments) {
    text.write_fmt(row).expect("text takes every row");
}
