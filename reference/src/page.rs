//! The blocks of the pages for newcomers and for planners, `docs/SHEETS.md` and
//! `docs/FORECASTS.md`, which tests hold to what they say.

const PAGES: [&str; 2] =
    [include_str!("../../docs/SHEETS.md"), include_str!("../../docs/FORECASTS.md")];

/// The labels of the newcomers' sheets. Those of the planners' page are among the
/// worked ones.
pub const SHEETS: [&str; 6] = [
    "words a-sheet",
    "words wide-sheet",
    "words network-sheet",
    "words islands-sheet",
    "words one-way-sheet",
    "words back-sheet",
];

/// The rows of both pages.
pub fn rows() -> impl Iterator<Item = &'static str> {
    PAGES.into_iter().flat_map(str::lines)
}

/// The rows of the block that is fenced off with this label.
///
/// # Panics
///
/// If neither page has such a block.
pub fn block(label: &str) -> Vec<&'static str> {
    let rows = rows().skip_while(|row| *row != format!("```{label}")).skip(1);
    let block: Vec<&str> = rows.take_while(|row| *row != "```").collect();
    assert!(!block.is_empty(), "no block {label}");
    block
}

/// The words that a block's rows begin with.
///
/// # Panics
///
/// If a row does not begin with eight hex digits.
pub fn words(label: &str) -> Vec<u32> {
    let word = |row: &&str| u32::from_str_radix(&row[..8], 16).expect("eight hex digits");
    block(label).iter().map(word).collect()
}
