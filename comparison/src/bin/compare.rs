//! The comparison of the engine with the reference implementation.
//!
//! `compare FIRST_SEED COUNT [PRINTING_PROGRAM]`
//!
//! Ends with status 1 at the first difference, and if something that should be
//! reached was not. A seed is tried again by `compare SEED 1`, where nothing is
//! missed for having tried so little.

#[path = "../library.rs"]
mod library;

use comparison::compare::Comparison;
use comparison::difference::Difference;
use comparison::printing::{Printer, Program};
use library::Library;
use reference::words::BYTES_PER_WORD;
use std::process::ExitCode;

/// Runs of fewer seeds cannot be expected to reach everything.
const FEWEST_TO_REACH_ALL: u64 = 50_000;

/// Longer sheets and answers are not printed: their seed makes them again.
const MOST_BYTES_TOLD: usize = 1_000;

fn main() -> ExitCode {
    let arguments: Vec<String> = std::env::args().skip(1).collect();
    let number = |at: usize| arguments.get(at).and_then(|text| text.parse::<u64>().ok());
    let (Some(first), Some(count)) = (number(0), number(1)) else {
        eprintln!("usage: compare FIRST_SEED COUNT [PRINTING_PROGRAM]");
        return ExitCode::from(2);
    };
    let program = arguments.get(2).map(|path| Program(path.into()));
    if program.is_none() {
        println!("no printing program given: not compared");
    }
    let printer = program.as_ref().map(|program| program as &dyn Printer);
    let mut comparison = Comparison::new(&Library, &Library, printer);
    if let Err(difference) = comparison.worked() {
        println!("comparison: a worked sheet, of docs/SHEETS.md or beside it");
        tell(&difference);
        return ExitCode::FAILURE;
    }
    for seed in first..first + count {
        if let Err(difference) = comparison.seed(seed) {
            println!("comparison: seed {seed}, after {} without a difference", seed - first);
            tell(&difference);
            return ExitCode::FAILURE;
        }
    }
    end(&comparison, count)
}

/// Prints what was reached; a longer run must have reached everything.
fn end(comparison: &Comparison, count: u64) -> ExitCode {
    print!("{}", comparison.reached.rows());
    let missed = comparison.reached.missed();
    if !missed.is_empty() {
        println!("comparison: {count} seeds never reached: {}", missed.join("; "));
    }
    if !missed.is_empty() && count >= FEWEST_TO_REACH_ALL {
        return ExitCode::FAILURE;
    }
    println!("comparison: {count} seeds, no difference");
    ExitCode::SUCCESS
}

/// Prints a difference and the bytes on which it was found.
fn tell(difference: &Difference) {
    println!("{}", difference.what);
    for (name, bytes) in &difference.found_on {
        println!("{name}: {} bytes", bytes.len());
        if bytes.len() <= MOST_BYTES_TOLD {
            println!("{}", told(bytes));
        }
    }
}

/// Bytes as hex words, a last one that is cut short with fewer digits.
fn told(bytes: &[u8]) -> String {
    let word = |chunk: &[u8]| chunk.iter().rev().map(|byte| format!("{byte:02X}")).collect();
    bytes.chunks(BYTES_PER_WORD).map(word).collect::<Vec<String>>().join(" ")
}
