//! Printing programs that count wrongly, lend more than they should, or print wide
//! sheets otherwise.

use super::{SEEDS, SEEDS_OF_RIGHT};
use crate::compare::Comparison;
use crate::printing::Printer;
use crate::Implementation;
use reference::fast::Fast;
use reference::layout::Front;
use reference::print::print;

/// Changes the rows of an accepted sheet, each given with its line and sample.
type Change = fn(&mut Vec<(u32, u32, String)>);

struct Miscounts(Change);

impl Printer for Miscounts {
    fn print(&self, input: &[u8]) -> std::io::Result<String> {
        let text = print::<Fast>(input);
        let rows = text.lines().map(|row| row.splitn(3, ' ').collect::<Vec<_>>());
        let mut changed: Vec<(u32, u32, String)> = rows
            .clone()
            .filter_map(|row| Some((row[0].parse().ok()?, row[1].parse().ok()?, row[2].into())))
            .collect();
        if changed.is_empty() {
            return Ok(text);
        }
        (self.0)(&mut changed);
        let printed =
            changed.iter().map(|(line, sample, rest)| format!("{line} {sample} {rest}\n"));
        let printed: String = printed.collect();
        let (first, last) = (text.lines().next(), text.lines().last());
        Ok(format!("{}\n{printed}{}\n", first.unwrap_or(""), last.unwrap_or("")))
    }
}

fn caught_within(change: Change, seeds: u64) -> bool {
    is_caught(&Miscounts(change), seeds)
}

fn is_caught(printer: &dyn Printer, seeds: u64) -> bool {
    let mut comparison = Comparison::new(&Implementation, &Implementation, Some(printer));
    (1..=seeds).any(|seed| comparison.seed(seed).is_err())
}

fn caught(change: Change) -> bool {
    caught_within(change, SEEDS)
}

#[test]
fn without_a_fault_nothing_is_found() {
    assert!(!caught_within(|_| {}, SEEDS_OF_RIGHT));
}

#[test]
fn samples_counted_from_0() {
    assert!(caught(|rows| {
        let mut before = None;
        for (line, sample, _) in rows {
            let (last_line, next) = before.unwrap_or((*line, 0));
            *sample = if last_line == *line { next } else { 0 };
            before = Some((*line, *sample + 1));
        }
    }));
}

/// As if every line began at sample 0 and had nothing to say at first.
#[test]
fn rows_of_samples_that_a_line_has_not() {
    assert!(caught(|rows| {
        let late = rows.iter().position(|(line, sample, _)| *line > 0 && *sample > 0);
        if let Some(at) = late.filter(|&at| rows[at - 1].0 != rows[at].0) {
            let (line, sample, rest) = rows[at].clone();
            rows.insert(at, (line, sample - 1, rest));
        }
    }));
}

/// Lends as many distances as a wide sheet needs, so that none is refused with 1.
struct LendsMore;

impl Printer for LendsMore {
    fn print(&self, input: &[u8]) -> std::io::Result<String> {
        Ok(print::<Fast>(input).replace("refused 1 0", "accepted"))
    }
}

#[test]
fn more_distances_lent_than_a_narrow_sheet_needs() {
    assert!(is_caught(&LendsMore, SEEDS));
}

/// Prints something more in the first row of a wide sheet.
struct PrintsFront;

impl Printer for PrintsFront {
    fn print(&self, input: &[u8]) -> std::io::Result<String> {
        let text = print::<Fast>(input);
        if Front::told_by_bytes(input).layout.is_wide() {
            return Ok(text.replacen('\n', " wide\n", 1));
        }
        Ok(text)
    }
}

#[test]
fn a_wide_sheet_printed_otherwise() {
    assert!(is_caught(&PrintsFront, SEEDS));
}
