//! Writes generated sheets as files, good and damaged, for hosts to be tried on, and
//! beside each a list of corrections, good or damaged as well.
//!
//! `sheets FOLDER FIRST_SEED COUNT`
//!
//! The file `expected` has a row for each sheet, in the order of the files'
//! names: the five numbers of the result that a host gets which lends enough. The
//! files `expected.wide` and `expected.narrow` have the three numbers that such a
//! host gets which takes the sheet to that layout, and `expected.corrected` those of
//! one which corrects it by the list beside it.

use reference::convert::convert;
use reference::correct_sheet;
use reference::fast::Fast;
use reference::generate::aim::lent::odd_input;
use reference::generate::random::Random;
use reference::generate::{case, corrections};
use reference::judge::{judge, Outcome, BYTES_PER_DISTANCE, RESULT_BYTES};
use reference::layout::{Front, Layout};
use reference::tool;
use reference::words::{self, BYTES_PER_WORD};
use std::fs;
use std::io;
use std::path::PathBuf;

/// Sheets that are to be accepted have at most so many places.
const MOST_PLACES: usize = 8;

/// Enough answer bytes for every sheet of at most eight places that the
/// generator makes.
const ANSWER_BYTES: usize = 4 * 1024 * 1024;

fn main() -> io::Result<()> {
    let arguments: Vec<String> = std::env::args().skip(1).collect();
    let number = |at: usize| arguments.get(at).and_then(|text| text.parse::<u64>().ok());
    let (Some(folder), Some(first), Some(count)) = (arguments.first(), number(1), number(2)) else {
        eprintln!("usage: sheets FOLDER FIRST_SEED COUNT");
        std::process::exit(2);
    };
    let folder = PathBuf::from(folder);
    fs::create_dir_all(&folder)?;
    let files: Vec<Files> = (first..first + count).map(Files::of).collect();
    for (seed, Files { sheet, corrections }) in (first..).zip(&files) {
        fs::write(folder.join(format!("{seed:08}.sheet")), sheet)?;
        fs::write(folder.join(format!("{seed:08}.corrections")), corrections)?;
    }
    let expected = |of: &str, row: fn(&Files) -> String| {
        let rows: String = files.iter().map(row).collect();
        fs::write(folder.join(format!("expected{of}")), rows)
    };
    expected("", |files| judged(&files.sheet))?;
    expected(".wide", |files| converted(&files.sheet, Layout::Wide))?;
    expected(".narrow", |files| converted(&files.sheet, Layout::Narrow))?;
    expected(".corrected", corrected)
}

/// What is written for a seed.
struct Files {
    sheet: Vec<u8>,
    corrections: Vec<u8>,
}

impl Files {
    /// Now and then the list is not of whole words.
    fn of(seed: u64) -> Self {
        let sheet = case(seed, MOST_PLACES).sheet;
        let mut random = Random::new(!seed);
        let mut corrections = words::to_bytes(&corrections::list(&mut random, &sheet));
        if random.chance(4) {
            odd_input(&mut random, &mut corrections);
        }
        Files { sheet, corrections }
    }
}

fn judged(sheet: &[u8]) -> String {
    let entries = Front::told_by_bytes(sheet).distances_needed();
    let mut distances = vec![0; entries * BYTES_PER_DISTANCE];
    let mut answer = vec![0; ANSWER_BYTES];
    let mut result = [0; RESULT_BYTES];
    judge::<Fast>(sheet, &mut distances, &mut answer, &mut result);
    let Outcome { number, place, words, rounds, yes } =
        Outcome::from_bytes(&result).unwrap_or_default();
    format!("number {number}, place {place}, words {words}, rounds {rounds}, yes {yes}\n")
}

fn converted(sheet: &[u8], layout: Layout) -> String {
    told(sheet, |output, result| convert(layout, sheet, output, result))
}

fn corrected(Files { sheet, corrections }: &Files) -> String {
    told(sheet, |output, result| correct_sheet(sheet, corrections, output, result))
}

/// The row of a tool that writes at most a word more than the sheet has.
fn told(sheet: &[u8], tool: impl FnOnce(&mut [u8], &mut [u8]) -> u64) -> String {
    let most_words = sheet.len() / BYTES_PER_WORD + 1;
    let mut output = vec![0; most_words * BYTES_PER_WORD];
    let mut result = [0; tool::RESULT_BYTES];
    tool(&mut output, &mut result);
    let tool::Outcome { number, place, words } =
        tool::Outcome::from_bytes(&result).unwrap_or_default();
    format!("number {number}, place {place}, words {words}\n")
}
