//! The lookup of one verdict in an answer's bytes.

use crate::answer::Answer;
use crate::words;

/// What the lookup gives where there is no verdict.
pub const NO_VERDICT: u64 = 0;

/// What the lookup gives for yes.
pub const YES: u64 = 1;

/// What the lookup gives for no.
pub const NO: u64 = 2;

/// "The lookup takes an answer, line, sample and place: 1 yes, 2 no, 0 no
/// verdict. It gives 0 exactly when the bytes aren't a whole answer as laid
/// out, or line, sample or place isn't in it."
///
/// A fault anywhere in the bytes therefore takes away every verdict, also those
/// before it. The sample is one of the recording, so one before the line's first
/// "isn't in it".
pub fn lookup(answer: &[u8], line: u64, sample: u64, place: u64) -> u64 {
    let answer = words::from_bytes(answer).and_then(|words| Answer::read(&words));
    let verdict = answer.and_then(|answer| answer.verdict(line, sample, place));
    match verdict {
        Some(verdict) if verdict.yes => YES,
        Some(_) => NO,
        None => NO_VERDICT,
    }
}
