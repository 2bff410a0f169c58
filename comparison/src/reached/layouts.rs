//! What accepted sheets show of the two layouts, and which layouts the checks
//! beside judging were tried on.

use super::{chosen, one_way};
use reference::generate::Case;
use reference::judge::BYTES_PER_DISTANCE;
use reference::layout::{Front, Layout, DISTANCE_ENTRIES, MOST_PLACES, MOST_WIDE_PLACES};
use reference::left::Left;
use reference::sheet::{Sheet, GREATEST_WEIGHT, LAST_CODE};

/// The greatest place that 8 bits hold.
pub const MOST_OF_A_BYTE: usize = 255;

/// The sheets that each check must have been tried on.
const LAYOUTS: [&str; 3] =
    ["a narrow sheet", "a wide sheet of up to 64 places", "a wide sheet of more than 64 places"];

/// The checks that make sheets of their own.
const CHECKS: [&str; 6] =
    ["steadiness", "raising", "laws", "time turned round", "decided alike", "corrections"];

/// What is looked for in wide sheets that are accepted, beside their codes.
const IN_WIDE: [&str; 15] = [
    "1 place",
    "64 places",
    "65 places",
    "more than 65 places",
    "more than 255 places",
    "1,024 places",
    "a road between two places above 255",
    "more than 64 places, some without a distance",
    "a distance beyond that of 63 roads",
    "distances lent exactly, fewer than 4,096",
    "distances lent exactly, more than 4,096",
    "distances lent longer, fewer than 4,096",
    "distances lent longer, more than 64 places",
    "more than 64 rounds",
    "more than 255 rounds",
];

/// The texts of the labels of accepted sheets.
pub fn texts() -> Vec<String> {
    let codes =
        (0..=LAST_CODE).flat_map(|code| LAYOUTS[1..].iter().map(move |at| of_code(code, at)));
    IN_WIDE.iter().map(|text| of_wide(text)).chain(codes).collect()
}

/// The labels of the checks.
pub fn labels_of_checks() -> impl Iterator<Item = String> {
    let labels = CHECKS.iter().flat_map(|check| LAYOUTS.map(|layout| of_check(check, layout)));
    labels.flat_map(|label| [label.clone(), with_one_way(&label)])
}

fn of_check(check: &str, layout: &str) -> String {
    format!("{check}: {layout}")
}

/// The label of a check on sheets some of whose roads run one way.
pub fn with_one_way(label: &str) -> String {
    format!("{label}, roads one way")
}

/// The labels of a check that was tried on a sheet.
pub fn shown_by_check(check: &str, words: &[u32]) -> impl Iterator<Item = String> {
    let label = of_check(check, layout(&Front::told(words)));
    let one_way = one_way::is_in(words).then(|| with_one_way(&label));
    std::iter::once(label).chain(one_way)
}

/// One of [`LAYOUTS`], whether or not the places are within their limits.
fn layout(front: &Front) -> &'static str {
    match front.layout {
        Layout::Narrow => LAYOUTS[0],
        Layout::Wide if front.places <= MOST_PLACES => LAYOUTS[1],
        Layout::Wide => LAYOUTS[2],
    }
}

fn of_wide(text: &str) -> String {
    format!("wide, {text}")
}

fn of_code(code: u32, layout: &str) -> String {
    format!("code {code} in {layout}")
}

/// The texts of an accepted sheet's labels, a code once for each line; none of a
/// narrow one.
pub fn shown(words: &[u32], sheet: &Sheet, case: &Case, left: &Left) -> Vec<String> {
    let front = Front::told(words);
    if !front.layout.is_wide() {
        return Vec::new();
    }
    let sizes = chosen(&IN_WIDE, in_wide(sheet, case, left)).map(of_wide);
    let codes = sheet.lines.iter().map(|line| of_code(line.operator.code(), layout(&front)));
    sizes.chain(codes).collect()
}

/// In the order of [`IN_WIDE`].
fn in_wide(sheet: &Sheet, case: &Case, left: &Left) -> [bool; 15] {
    let places = sheet.head.places;
    let is_city = places > MOST_PLACES;
    let rounds = left.outcome().map_or(0, |outcome| outcome.rounds as usize);
    let (needed, lent) = (places * places, case.distances / BYTES_PER_DISTANCE);
    let farthest = farthest(left);
    [
        places == 1,
        places == MOST_PLACES,
        places == MOST_PLACES + 1,
        places > MOST_PLACES + 1,
        places > MOST_OF_A_BYTE,
        places == MOST_WIDE_PLACES,
        sheet.roads.iter().any(|road| road.first > MOST_OF_A_BYTE),
        is_city && !sheet.roads.is_empty() && farthest == u64::MAX,
        farthest > 63 * u64::from(GREATEST_WEIGHT) && farthest < u64::MAX,
        lent == needed && lent < DISTANCE_ENTRIES,
        lent == needed && lent > DISTANCE_ENTRIES,
        lent > needed && lent < DISTANCE_ENTRIES,
        lent > needed && is_city,
        rounds > MOST_PLACES,
        rounds > MOST_OF_A_BYTE,
    ]
}

/// The greatest entry of the distance table.
fn farthest(left: &Left) -> u64 {
    let (entries, _) = left.distances.as_chunks();
    entries.iter().map(|&entry| u64::from_le_bytes(entry)).max().unwrap_or(0)
}

#[cfg(test)]
mod tests {
    use super::*;
    use reference::builder::SheetBuilder;

    #[test]
    fn layouts_are_told_apart() {
        let layout_of = |sheet: SheetBuilder| {
            shown_by_check("laws", &sheet.words()).collect::<Vec<String>>().join("; ")
        };
        let expected = LAYOUTS.map(|layout| format!("laws: {layout}"));
        assert_eq!(layout_of(SheetBuilder::new(64, 1, 1)), expected[0]);
        assert_eq!(layout_of(SheetBuilder::new(65, 1, 1)), expected[0]);
        assert_eq!(layout_of(SheetBuilder::wide(64, 1, 1)), expected[1]);
        assert_eq!(layout_of(SheetBuilder::wide(65, 1, 1)), expected[2]);
        assert_eq!(layout_of(SheetBuilder::new(2, 1, 1).road(0, 1, 1)), expected[0]);
        let one_way = layout_of(SheetBuilder::wide(2, 1, 1).one_way(1, 0, 1));
        assert_eq!(one_way, format!("{0}; {0}, roads one way", expected[1]));
    }

    #[test]
    fn no_layout_is_left_out() {
        assert_eq!(labels_of_checks().count(), 2 * CHECKS.len() * LAYOUTS.len());
    }
}
