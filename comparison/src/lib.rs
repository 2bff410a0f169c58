//! The checks that hold an engine against the reference implementation.
//!
//! An [`Engine`] is anything that judges sheets and looks verdicts up over
//! bytes, [`tools::Tools`] anything that writes words without judging. The programs
//! of this package run the checks on the proved engine's static library; the tests
//! run them on engines and tools that are wrong on purpose and must be caught.

#![forbid(unsafe_code)]
#![warn(missing_docs)]

pub mod alike;
pub mod bench;
pub mod compare;
pub mod converting;
pub mod correcting;
pub mod deciding;
pub mod difference;
pub mod judging;
pub mod laws;
pub mod lent;
pub mod lookups;
pub mod mirror;
pub mod printing;
pub mod raising;
pub mod reached;
pub mod steadiness;
pub mod tools;

#[cfg(test)]
mod wrong;

/// The buffers that are lent for a judge to fill.
pub struct Filled<'a> {
    /// The distance table.
    pub distances: &'a mut [u8],
    /// The answer.
    pub answer: &'a mut [u8],
    /// The result.
    pub result: &'a mut [u8],
}

/// What a host reaches of the engine: two functions of the library, over bytes.
pub trait Engine {
    /// Judges a sheet into lent buffers and gives the number.
    fn judge(&self, sheet: &[u8], left: Filled) -> u64;

    /// Looks a verdict up in an answer: 1 yes, 2 no, 0 no verdict.
    fn lookup(&self, answer: &[u8], line: u64, sample: u64, place: u64) -> u64;
}

/// The reference implementation as an engine, with the evaluator that follows
/// the published algorithm.
pub struct Implementation;

impl Engine for Implementation {
    fn judge(&self, sheet: &[u8], left: Filled) -> u64 {
        reference::judge::<reference::fast::Fast>(sheet, left.distances, left.answer, left.result)
    }

    fn lookup(&self, answer: &[u8], line: u64, sample: u64, place: u64) -> u64 {
        reference::lookup(answer, line, sample, place)
    }
}

/// The reference implementation as an engine, with the evaluator that follows
/// the definitions to the letter: slow, so for few places only.
pub struct Definitions;

impl Engine for Definitions {
    fn judge(&self, sheet: &[u8], left: Filled) -> u64 {
        let Filled { distances, answer, result } = left;
        reference::judge::<reference::meaning::Meaning>(sheet, distances, answer, result)
    }

    fn lookup(&self, answer: &[u8], line: u64, sample: u64, place: u64) -> u64 {
        reference::lookup(answer, line, sample, place)
    }
}
