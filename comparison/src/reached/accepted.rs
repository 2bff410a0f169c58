//! What an accepted sheet and its answer show.

use super::{extents, layouts, one_way, reading, surrounds};
use reference::distance::NO_DISTANCE;
use reference::generate::Case;
use reference::judge::BYTES_PER_DISTANCE;
use reference::layout::{Front, ENOUGH_DISTANCES, MOST_PLACES};
use reference::left::Left;
use reference::print::MOST_BYTES;
use reference::sheet::{self, Sheet, GREATEST_WEIGHT, LAST_CODE};
use reference::sheet::{MOST_LINES, MOST_SAMPLES, MOST_SIGNALS};
use reference::words::{self, kinds, BYTES_PER_WORD};

const GREATEST_MARGIN: u32 = (1 << 27) - 1;

/// What is looked for in a sheet, beside its codes.
const IN_SHEET: [&str; 14] = [
    "64 places",
    "16 signals",
    "1,024 samples",
    "64 lines",
    "2,016 roads",
    "no road between two places or more",
    "some places without a distance",
    "bounds 0..0",
    "equal bounds above 0",
    "upper bound 268,435,455",
    "operands nested eight deep",
    "64 rounds",
    "above 32,768 bytes",
    "64 places, signals and samples all at their limits",
];

/// What is looked for in what is lent.
const LENT: [&str; 4] = [
    "answer lent exactly",
    "answer lent longer",
    "distances lent exactly",
    "distances lent longer",
];

/// What is looked for among the words of answers: label and word.
const IN_ANSWER: [(&str, u32); 6] = [
    ("yes 0", kinds::YES << 28),
    ("no 0", kinds::NO << 28),
    ("yes 134,217,727", kinds::YES << 28 | GREATEST_MARGIN),
    ("no -134,217,727", kinds::NO << 28 | (GREATEST_MARGIN + 2)),
    ("yes +inf", kinds::YES_PLUS_INFINITY << 28),
    ("no -inf", kinds::NO_MINUS_INFINITY << 28),
];

/// All labels.
pub fn labels() -> Vec<String> {
    let codes = (0..=LAST_CODE).map(code_label);
    let rest = IN_SHEET.iter().chain(&LENT).chain(IN_ANSWER.iter().map(|(label, _)| label));
    let of_lines =
        extents::labels().into_iter().chain(surrounds::labels()).chain(reading::labels());
    let texts = of_lines.chain(layouts::texts()).chain(one_way::labels());
    codes.chain(rest.map(|text| label(text))).chain(texts.map(|text| label(&text))).collect()
}

fn label(text: &str) -> String {
    format!("accepted: {text}")
}

fn code_label(code: u32) -> String {
    format!("code {code}")
}

/// The labels of an accepted case, a code and an extent once for each line.
pub fn shown(words: &[u32], case: &Case, left: &Left) -> Vec<String> {
    let Ok(sheet) = sheet::check(words, ENOUGH_DISTANCES) else {
        return Vec::new();
    };
    let codes = sheet.lines.iter().map(|line| code_label(line.operator.code()));
    let in_sheet = in_sheet(&sheet, words, left);
    let shown = IN_SHEET.iter().zip(in_sheet).filter(|(_, shown)| *shown);
    codes
        .chain(shown.map(|(text, _)| label(text)))
        .chain(lent(case, left).map(label))
        .chain(in_answer(left))
        .chain(extents::shown(&sheet).iter().map(|text| label(text)))
        .chain(surrounds::shown(&sheet, left).iter().map(|text| label(text)))
        .chain(reading::shown(&sheet, left).iter().map(|text| label(text)))
        .chain(layouts::shown(words, &sheet, case, left).iter().map(|text| label(text)))
        .chain(one_way::shown(&sheet, left).iter().map(|text| label(text)))
        .collect()
}

/// In the order of [`IN_SHEET`].
fn in_sheet(sheet: &Sheet, words: &[u32], left: &Left) -> [bool; 14] {
    let bounds = |wanted: fn(u32, u32) -> bool| {
        let mut all = sheet.lines.iter().filter_map(|line| line.operator.bounds());
        all.any(|bounds| wanted(bounds.lower, bounds.upper))
    };
    let (places, samples) = (sheet.head.places, sheet.head.samples);
    let none = NO_DISTANCE.to_le_bytes();
    let mut distances = left.distances.chunks_exact(BYTES_PER_DISTANCE);
    [
        places == MOST_PLACES,
        sheet.head.signals == MOST_SIGNALS,
        samples == MOST_SAMPLES,
        sheet.lines.len() == MOST_LINES,
        sheet.roads.len() == 2016,
        sheet.roads.is_empty() && sheet.head.places > 1,
        !sheet.roads.is_empty() && distances.any(|entry| entry == none),
        bounds(|lower, upper| lower == 0 && upper == 0),
        bounds(|lower, upper| lower > 0 && lower == upper),
        bounds(|_, upper| upper == GREATEST_WEIGHT),
        sheet.depths().into_iter().any(|depth| depth >= 8),
        left.outcome().is_some_and(|outcome| outcome.rounds == 64),
        words.len() * BYTES_PER_WORD > MOST_BYTES,
        (places, sheet.head.signals, samples) == (MOST_PLACES, MOST_SIGNALS, MOST_SAMPLES),
    ]
}

fn lent(case: &Case, left: &Left) -> impl Iterator<Item = &'static str> {
    let written = left.outcome().map_or(0, |outcome| outcome.words as usize);
    let longer_answer = case.answer > written * BYTES_PER_WORD;
    let needed = Front::told_by_bytes(&case.sheet).distances_needed();
    let longer_distances = case.distances > needed * BYTES_PER_DISTANCE;
    [LENT[usize::from(longer_answer)], LENT[2 + usize::from(longer_distances)]].into_iter()
}

fn in_answer(left: &Left) -> Vec<String> {
    let words = words::from_bytes(&left.answer).unwrap_or_default();
    let found = IN_ANSWER.iter().filter(|(_, wanted)| words.contains(wanted));
    found.map(|(text, _)| label(text)).collect()
}
