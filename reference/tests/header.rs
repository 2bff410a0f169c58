//! The header for hosts in C says the numbers that the implementation knows.

use reference::answer;
use reference::builder::SheetBuilder;
use reference::correct::WORDS_PER_CORRECTION;
use reference::judge::{BYTES_PER_DISTANCE, RESULT_BYTES};
use reference::layout::{
    Layout, DISTANCE_ENTRIES, ENOUGH_DISTANCES, MOST_PLACES, MOST_WIDE_PLACES,
};
use reference::sheet::check;
use reference::sheet::{MOST_LINES, MOST_SAMPLES, MOST_SIGNALS};
use reference::tool;
use reference::words::BYTES_PER_WORD;

const HEADER: &str = include_str!("../../include/tecuhualma.h");

/// What the header defines a name as.
fn defined(name: &str) -> &'static str {
    let start = format!("#define TECUHUALMA_{name} ");
    let found = HEADER.lines().find_map(|row| row.strip_prefix(start.as_str()));
    found.unwrap_or_else(|| panic!("no {name}"))
}

fn number(name: &str) -> usize {
    defined(name).parse().expect("a number")
}

#[test]
fn limits_and_lengths() {
    assert_eq!(number("MOST_PLACES"), MOST_PLACES);
    assert_eq!(number("MOST_SIGNALS"), MOST_SIGNALS);
    assert_eq!(number("MOST_SAMPLES"), MOST_SAMPLES);
    assert_eq!(number("MOST_LINES"), MOST_LINES);
    assert_eq!(number("MOST_ROADS"), MOST_PLACES * (MOST_PLACES - 1) / 2);
    assert_eq!(number("MOST_WIDE_PLACES"), MOST_WIDE_PLACES);
    assert_eq!(number("MOST_WIDE_ROADS"), MOST_WIDE_PLACES * (MOST_WIDE_PLACES - 1) / 2);
    assert_eq!(number("WORD_BYTES"), BYTES_PER_WORD);
    assert_eq!(number("DISTANCE_BYTES"), BYTES_PER_DISTANCE);
    assert_eq!(number("DISTANCES"), DISTANCE_ENTRIES);
    assert_eq!(number("RESULT_BYTES"), RESULT_BYTES);
    assert_eq!(number("TOOL_RESULT_BYTES"), tool::RESULT_BYTES);
    assert_eq!(number("CORRECTION_WORDS"), WORDS_PER_CORRECTION);
}

#[test]
fn version_and_its_parts() {
    let parts = ["VERSION_MAJOR", "VERSION_MINOR", "VERSION_PATCH"].map(defined);
    assert_eq!(defined("VERSION"), format!("\"{}\"", parts.join(".")));
}

/// The words of the longest sheet that is accepted. Its first line can have no
/// operand, so it has two words at most; each other has three at most, a line word
/// and two bounds.
fn longest(layout: Layout) -> Vec<u32> {
    let (places, signals) = (layout.most_places(), MOST_SIGNALS);
    let [n, v, t] = [places, signals, MOST_SAMPLES].map(|size| size as u32);
    let pairs = (0..n).flat_map(|first| (first + 1..n).map(move |second| (first, second)));
    let sheet = SheetBuilder::laid_out(layout, n, v, t);
    let sheet = pairs.fold(sheet, |sheet, (first, second)| sheet.road(first, second, 1));
    let sheet = sheet.samples(&vec![0; places * signals * MOST_SAMPLES]).at_least(0, 0);
    let sheet = (1..MOST_LINES).fold(sheet, |sheet, _| sheet.bounded(6, 0, 0, (0, 1)));
    sheet.end()
}

/// Longest sheets have the words that the header defines, and need the answer words
/// that it tells.
#[test]
fn the_longest_sheets_and_answers() {
    let expected = [
        (Layout::Narrow, "MOST_SHEET_WORDS", "4,194,370"),
        (Layout::Wide, "MOST_WIDE_SHEET_WORDS", "67,108,931"),
    ];
    for (layout, sheet_words, answer_words) in expected {
        let words = longest(layout);
        assert_eq!(words.len(), number(sheet_words));
        let sheet = check(&words, ENOUGH_DISTANCES).expect("a valid sheet");
        assert_eq!(answer::needed(&sheet).to_string(), answer_words.replace(',', ""));
        assert!(HEADER.contains(answer_words));
    }
}
