//! The pages for newcomers and for planners show what the implementation gives.

mod common;

use common::*;
use reference::fast::Fast;
use reference::generate::tools::Given;
use reference::judge::{Outcome, BYTES_PER_DISTANCE};
use reference::layout::Layout;
use reference::page;
use reference::print::print;
use reference::road::Direction;
use reference::sheet::LAST_CODE;
use reference::words;
use reference::worked::{
    AFTER_RAISING, A_CORRECTED, BEFORE_RAISING, CORRECTIONS_OF_A, ONE_WAY, WIDE_A,
};

fn printed(words: &[u32]) -> String {
    print::<Fast>(&words::to_bytes(words))
}

#[test]
fn example_a() {
    let sheet = page::words("words a-sheet");
    assert_eq!(sheet, EXAMPLE_A);
    let answer = page::words("words a-answer");
    assert_eq!(answer_words(&judged_words(&sheet))[..answer.len()], answer);
    assert_eq!(outcome(&judged_words(&sheet)).words, answer.len() as u64);
    assert_eq!(printed(&sheet), page::block("rows a-printed").join("\n") + "\n");
}

/// The file that is handed to the printing program in a first try.
#[test]
fn example_a_as_a_file() {
    let file = include_bytes!("../examples/a.sheet");
    assert_eq!(file[..], words::to_bytes(&EXAMPLE_A));
}

/// Judged with the four distances that it needs.
#[test]
fn example_a_laid_out_wide() {
    let sheet = page::words("words wide-sheet");
    assert_eq!(sheet, WIDE_A);
    let answer = page::words("words wide-answer");
    let left = judged_words(&sheet);
    assert_eq!(answer_words(&left)[..answer.len()], answer);
    let expected = Outcome { words: answer.len() as u64, rounds: 1, yes: 11, ..Outcome::default() };
    assert_eq!(outcome(&left), expected);
    assert_eq!(left.distances.len(), 4 * BYTES_PER_DISTANCE);
    assert_eq!(distances(&left, 4), [0, 3, 3, 0]);
    let narrow = page::block("rows a-printed")[1..].join("\n") + "\n";
    assert_eq!(printed(&sheet), format!("accepted 21 1 11\n{narrow}"));
}

#[test]
fn a_road_of_a_city() {
    assert_eq!(Layout::Wide.pair_word(300, 1000), 0x2012C3E8);
}

/// The words that the page's table of converting shows are those of the blocks, and no
/// others change.
#[test]
fn from_narrow_to_wide() {
    let (narrow, wide) = (page::words("words a-sheet"), page::words("words wide-sheet"));
    assert_eq!(narrow[1..18], wide[2..19]);
    let road = page::words("words network-sheet")[7];
    assert_eq!(road, Layout::Narrow.pair_word(3, 4));
    let row = |label: &str, narrow: u32, wide: &[u32]| {
        let wide: Vec<String> = wide.iter().map(|word| format!("`{word:08X}`")).collect();
        let row = format!("| {label} | `{narrow:08X}` | {} |", wide.join(" "));
        assert!(page::rows().any(|shown| shown == row), "{row}");
    };
    row("first words", narrow[0], &wide[..2]);
    row("end", narrow[18], &wide[19..]);
    row("a road's first word", road, &[Layout::Wide.pair_word(3, 4)]);
    let forth = Direction::FirstToSecond.mark();
    row("a one-way road's first word", road | forth, &[Layout::Wide.pair_word(3, 4) | forth]);
}

#[test]
fn the_worked_network() {
    let sheet = page::words("words network-sheet");
    assert_eq!(printed(&sheet), page::block("rows network-printed").join("\n") + "\n");
}

#[test]
fn with_and_without_islands() {
    let sheet = page::words("words islands-sheet");
    assert_eq!(sheet, ISLANDS);
    assert_eq!(printed(&sheet), page::block("rows islands-printed").join("\n") + "\n");
}

/// What the page says of the same sheet without its road, and without line 3.
#[test]
fn islands_without_a_road() {
    let sheet = [&ISLANDS[..1], &ISLANDS[3..11]].concat();
    let line_2 = [0x50700001, 0x60000000, 0x70000009];
    let line_3 = [0x50F00001, 0x60000000, 0x70000009];
    let both = [&sheet[..], &line_2, &line_3, &[0xF000_000F]].concat();
    let rows = "2 0 no -inf no -inf\n3 0 yes 5 yes 6\nend 4\n";
    assert!(printed(&both).ends_with(rows));
    let one = [&sheet[..], &line_2, &[0xF000_000C]].concat();
    assert!(printed(&one).starts_with("accepted 11 0 4\n"));
}

/// The sheet, and the rows of the page's table of what changes with its road: bit 27,
/// bit 26, neither, and both, which are refused.
#[test]
fn a_one_way_road() {
    let sheet = page::words("words one-way-sheet");
    assert_eq!(sheet, ONE_WAY);
    assert_eq!(printed(&sheet), page::block("rows one-way-printed").join("\n") + "\n");
    let none = u64::MAX;
    let ways = [
        (0x28000001, [0, 3, none, 0], 8),
        (0x24000001, [0, none, 3, 0], 8),
        (0x20000001, [0, 3, 3, 0], 10),
    ];
    for (road, expected, yes) in ways {
        let left = judged_words(&[&sheet[..1], &[road], &sheet[2..]].concat());
        assert_eq!((distances(&left, 4), outcome(&left).yes), (expected.to_vec(), yes));
        let row = format!("| `{road:08X}` | ");
        let shown = page::rows().find(|shown| shown.starts_with(&row)).expect("a row");
        assert!(shown.ends_with(&format!(" | {yes} |")), "{shown}");
    }
    let both = [&sheet[..1], &[0x2C000001], &sheet[2..]].concat();
    assert_eq!(printed(&both), "refused 4 1\n");
}

#[test]
fn looking_back() {
    let sheet = page::words("words back-sheet");
    assert_eq!(sheet, LOOKING_BACK);
    let answer = page::words("words back-answer");
    assert_eq!(answer_words(&judged_words(&sheet))[..answer.len()], answer);
    assert_eq!(outcome(&judged_words(&sheet)).words, answer.len() as u64);
    assert_eq!(printed(&sheet), page::block("rows back-printed").join("\n") + "\n");
}

/// Two words of the forecast are replaced by those that the page names.
#[test]
fn a_better_forecast() {
    let sheet = page::words("words forecast");
    assert_eq!(sheet, BEFORE_RAISING);
    assert_eq!(printed(&sheet), page::block("rows forecast-printed").join("\n") + "\n");
    let raised = [&sheet[..4], &[0x40000000, 0x40000002], &sheet[6..]].concat();
    assert_eq!(raised, AFTER_RAISING);
    assert_eq!(printed(&raised), page::block("rows raised-printed").join("\n") + "\n");
}

/// What the planners' page says of the newcomers' network: with three bikes more at
/// station 0 it is no longer short of them, and line 2 loses its yes there.
#[test]
fn bikes_for_a_station_that_is_to_be_short_of_them() {
    let mut sheet = page::words("words network-sheet");
    assert_eq!(sheet[9], 0x40000001);
    sheet[9] = 0x40000004;
    assert!(printed(&sheet).contains("\n2 0 no -1 no -3 no -2 no -inf no -inf\n"));
}

/// The page's table of codes has a row for each that there is, and no other.
#[test]
fn every_code_has_its_row() {
    let rows = page::rows().skip_while(|row| !row.starts_with("| Code |")).skip(2);
    let codes = rows.map_while(|row| row.split('|').nth(1)?.trim().parse::<u32>().ok());
    assert_eq!(codes.collect::<Vec<_>>(), (0..=LAST_CODE).collect::<Vec<_>>());
}

/// Every block of words that is a sheet is among those that others try too.
#[test]
fn all_sheets_are_listed() {
    let labels = page::rows().filter_map(|row| row.strip_prefix("```"));
    let sheets = labels.filter(|label| label.ends_with("-sheet"));
    assert_eq!(sheets.collect::<Vec<_>>(), page::SHEETS);
}

/// The list, the words of example A that it changes, and what other lists are refused
/// with, as the page's tables have it.
#[test]
fn late_corrections() {
    let (sheet, list) = (page::words("words a-sheet"), page::words("words a-corrections"));
    assert_eq!(list, CORRECTIONS_OF_A);
    let written = corrected(&Given::of(&[&sheet, &list], sheet.len())).written();
    assert_eq!(written, A_CORRECTED);
    for (index, (before, after)) in sheet.iter().zip(&written).enumerate() {
        let (time, place) = (index.wrapping_sub(3) / 2, index.wrapping_sub(3) % 2);
        let row = format!("| {index} | {time} | {place} | `{before:08X}` | `{after:08X}` |");
        assert_eq!(page::rows().any(|shown| shown == row), before != after, "{row}");
    }
    let others = [
        ("| with `B0000001` as first word", [&[0xB0000001], &list[1..]].concat()),
        ("| cut off after 8 words", list[..8].to_vec()),
        (
            "| with `B0100001` `C0000000` `40000007` behind it",
            [&list[..], &[0xB0100001, 0xC0000000, 0x40000007]].concat(),
        ),
    ];
    for (label, other) in others {
        let (number, place) = tool_refused(&corrected(&Given::of(&[&sheet, &other], sheet.len())));
        let shown = page::rows().find(|shown| shown.starts_with(label)).expect("a row");
        assert!(shown.ends_with(&format!(" | {number} | {place} |")), "{shown}");
    }
}

/// Every row of the page's table of refusals, and no other.
#[test]
fn every_refusal_has_its_row() {
    let rows = page::rows().skip_while(|row| !row.starts_with("| No. |")).skip(2);
    let numbers = rows.map_while(|row| row.split('|').nth(1)?.trim().parse::<u64>().ok());
    assert_eq!(numbers.collect::<Vec<_>>(), (1..=20).collect::<Vec<_>>());
}
