//! The kinds of places that a refusal strikes.

use super::extents::WITH_TWO;
use super::{no_sample, roads_refused, setting, wide_refused};
use reference::generate::Case;
use reference::judge::{BYTES_PER_DISTANCE, RESULT_BYTES};
use reference::layout::{Front, Layout, Pair, ENOUGH_DISTANCES, MOST_PLACES};
use reference::road::BOTH_MARKS;
use reference::sheet::{LAST_CODE, MOST_SAMPLES, MOST_SIGNALS};
use reference::words::{self, kinds, BYTES_PER_WORD};

/// Codes that are followed by a constant.
const WITH_CONSTANT: [u32; 2] = [1, 2];

/// Codes that are followed by bounds.
const WITH_BOUNDS: [u32; 10] = [5, 6, 7, 9, 10, 11, 12, 13, 14, 15];

/// What the fields of a line word can stand for.
const SIGNAL: &str = "signal";
const LEFT_OPERAND: &str = "left operand";
const RIGHT_OPERAND: &str = "right operand";
const UNUSED_LEFT: &str = "unused left field";
const UNUSED_RIGHT: &str = "unused right field";

/// What is told of a word that is missing, and of one of another kind.
const ABSENT: &str = "absent";
const OTHER_KIND: &str = "another kind";

/// All labels.
pub fn labels() -> Vec<String> {
    let fixed: [(u64, &[&str]); 11] = [
        (1, &["no entry", "an entry short", "some entries"]),
        (2, &[ABSENT, OTHER_KIND]),
        (3, &["places 0", "signals 0", "samples 0", "65 places or more", "17 signals or more"]),
        (3, &["1,025 samples or more"]),
        (5, &["places equal", "places exchanged", "second beyond n"]),
        (6, &["pair repeated", "pair lower"]),
        (7, &[ABSENT, OTHER_KIND, "weight 0"]),
        (8, &[ABSENT, OTHER_KIND]),
        (10, &[ABSENT, "an end", "a sample", OTHER_KIND, "65th line"]),
        (14, &[ABSENT, OTHER_KIND, "wrong count", "a word follows"]),
        (15, &["a word short", "no word", "some words"]),
    ];
    let of_bytes = ["sheet", "answer", "distances", "result", "result, all else right"];
    let of_fixed =
        fixed.iter().flat_map(|(number, shown)| shown.iter().map(|text| label(*number, text)));
    of_fixed
        .chain(of_bytes.iter().map(|text| label(16, text)))
        .chain(line_word_labels())
        .chain(parameter_labels())
        .chain(no_sample::texts().iter().map(|text| label(13, text)))
        .chain(setting::labels().map(|(number, text)| label(number, text)))
        .chain(wide_refused::labels().into_iter().map(|(number, text)| label(number, &text)))
        .chain(roads_refused::labels().map(|(number, text)| label(number, &text)))
        .collect()
}

/// 11 for each code and field, and for codes that there are not.
fn line_word_labels() -> Vec<String> {
    let known = (0..=LAST_CODE).flat_map(|code| {
        let (left, right) = fields(code);
        [left, right].map(|field| format!("code {code}, {field}"))
    });
    let unknown = [LAST_CODE + 1, LAST_CODE + 2].map(unknown_text);
    known.chain(unknown).map(|text| label(11, &text)).collect()
}

/// What the fields of a line word of this code stand for.
fn fields(code: u32) -> (&'static str, &'static str) {
    let left = match code {
        0 => UNUSED_LEFT,
        1 | 2 => SIGNAL,
        _ => LEFT_OPERAND,
    };
    (left, if WITH_TWO.contains(&code) { RIGHT_OPERAND } else { UNUSED_RIGHT })
}

/// 12 for each code and parameter: absent, another kind, and its own fault.
fn parameter_labels() -> Vec<String> {
    let constants = WITH_CONSTANT.iter().flat_map(|&code| {
        [ABSENT, OTHER_KIND, "bit 27"].map(|fault| parameter_label(code, "constant", fault))
    });
    let lowers = WITH_BOUNDS
        .iter()
        .flat_map(|&code| [ABSENT, OTHER_KIND].map(|fault| parameter_label(code, "lower", fault)));
    let uppers = WITH_BOUNDS.iter().flat_map(|&code| {
        [ABSENT, OTHER_KIND, "below lower"].map(|fault| parameter_label(code, "upper", fault))
    });
    constants.chain(lowers).chain(uppers).collect()
}

fn label(number: u64, text: &str) -> String {
    format!("refusal {number}: {text}")
}

fn parameter_label(code: u32, parameter: &str, fault: &str) -> String {
    label(12, &format!("code {code}, {parameter}, {fault}"))
}

/// The first code that there is not is told from those above it.
fn unknown_text(code: u32) -> String {
    if code > LAST_CODE + 1 {
        format!("code above {}", LAST_CODE + 1)
    } else {
        format!("code {code}")
    }
}

/// The labels of a refused case: what was wrong, and where.
pub fn shown(words: &[u32], case: &Case, number: u64, place: usize) -> Vec<String> {
    let mut shown = fault(words, case, number, place);
    let struck = setting::Struck { words, case, place };
    shown.extend(setting::shown(&struck, number).into_iter().map(|text| label(number, text)));
    shown.extend(wide_refused::shown(&struck, number).iter().map(|text| label(number, text)));
    shown.extend(roads_refused::shown(&struck, number).iter().map(|text| label(number, text)));
    shown
}

/// The labels that tell what was wrong.
fn fault(words: &[u32], case: &Case, number: u64, place: usize) -> Vec<String> {
    let word = words.get(place).copied();
    let found = match number {
        1 => vec![entries(case, words)],
        2 | 8 => vec![word_there(word)],
        3 => limits(&Front::told(words)),
        5 => vec![road_places(Layout::of(words).pair(words[place]))],
        6 => vec![road_order(words, place)],
        7 if word == Some(words::word(kinds::ROAD_WEIGHT, 0)) => vec!["weight 0"],
        7 => vec![word_there(word)],
        10 => vec![line_there(word)],
        11 => return line_word(words, place),
        12 => return vec![parameter(words, place)],
        13 => return no_sample::shown(words, place).iter().map(|text| label(13, text)).collect(),
        14 => vec![end_there(words, place)],
        15 => vec![answer_words(case, words)],
        16 => odd_lengths(case),
        _ => vec![],
    };
    found.into_iter().map(|text| label(number, text)).collect()
}

fn code(word: u32) -> u32 {
    words::field(word, 27, 20)
}

fn word_there(word: Option<u32>) -> &'static str {
    word.map_or(ABSENT, |_| OTHER_KIND)
}

fn entries(case: &Case, words: &[u32]) -> &'static str {
    match case.distances / BYTES_PER_DISTANCE {
        0 => "no entry",
        lent if lent + 1 == Front::told(words).distances_needed() => "an entry short",
        _ => "some entries",
    }
}

fn limits(front: &Front) -> Vec<&'static str> {
    let &Front { layout, places, middle: signals, samples } = front;
    let outside = [
        ("places 0", places == 0),
        ("signals 0", signals == 0),
        ("samples 0", samples == 0),
        ("65 places or more", !layout.is_wide() && places > MOST_PLACES),
        ("17 signals or more", signals > MOST_SIGNALS),
        ("1,025 samples or more", samples > MOST_SAMPLES),
    ];
    outside.iter().filter(|(_, outside)| *outside).map(|(text, _)| *text).collect()
}

/// The code of a refused line word with each of its fields that is at fault.
fn line_word(words: &[u32], place: usize) -> Vec<String> {
    let word = words[place];
    let code = code(word);
    if code > LAST_CODE {
        return vec![label(11, &unknown_text(code))];
    }
    let signals = Front::told(words).middle as u32;
    let earlier = words::indices(&words[..place], |kind| kind == kinds::LINE).len() as u32;
    let fits = |field: u32, stands_for: &str| match stands_for {
        SIGNAL => field < signals,
        LEFT_OPERAND | RIGHT_OPERAND => field < earlier,
        _ => field == 0,
    };
    let (left, right) = fields(code);
    let written = [(words::field(word, 19, 10), left), (words::field(word, 9, 0), right)];
    let faulty = written.iter().filter(|(field, stands_for)| !fits(*field, stands_for));
    faulty.map(|(_, stands_for)| label(11, &format!("code {code}, {stands_for}"))).collect()
}

fn road_places(pair: Pair) -> &'static str {
    match pair.first.cmp(&pair.second) {
        std::cmp::Ordering::Less => "second beyond n",
        std::cmp::Ordering::Equal => "places equal",
        std::cmp::Ordering::Greater => "places exchanged",
    }
}

/// The road before begins two words before; directions do not count.
fn road_order(words: &[u32], place: usize) -> &'static str {
    let pair = |at: usize| words[at] & !BOTH_MARKS;
    if pair(place) == pair(place - 2) {
        "pair repeated"
    } else {
        "pair lower"
    }
}

fn line_there(word: Option<u32>) -> &'static str {
    match word.map(words::kind) {
        None => ABSENT,
        Some(kinds::END) => "an end",
        Some(kinds::SAMPLE) => "a sample",
        Some(kinds::LINE) => "65th line",
        Some(_) => OTHER_KIND,
    }
}

/// The line word of a parameter stands one or two words before it: two, if the
/// word right before is a lower bound.
fn parameter(words: &[u32], place: usize) -> String {
    let is_upper = words::kind(words[place - 1]) == kinds::LOWER;
    let code = code(words[if is_upper { place - 2 } else { place - 1 }]);
    let (name, kind, own_fault) = match (is_upper, WITH_CONSTANT.contains(&code)) {
        (true, _) => ("upper", kinds::UPPER, "below lower"),
        (_, true) => ("constant", kinds::CONSTANT, "bit 27"),
        _ => ("lower", kinds::LOWER, "none"),
    };
    let fault = match words.get(place) {
        None => ABSENT,
        Some(&word) if words::kind(word) == kind => own_fault,
        Some(_) => OTHER_KIND,
    };
    parameter_label(code, name, fault)
}

/// A word that follows stands behind an end of the right count.
fn end_there(words: &[u32], place: usize) -> &'static str {
    let end_before = words::word(kinds::END, place as u32 - 1);
    match words.get(place) {
        None => ABSENT,
        Some(_) if words[place - 1] == end_before => "a word follows",
        Some(&word) if words::kind(word) == kinds::END => "wrong count",
        Some(_) => OTHER_KIND,
    }
}

fn answer_words(case: &Case, words: &[u32]) -> &'static str {
    let sheet = reference::sheet::check(words, ENOUGH_DISTANCES);
    let needed = sheet.map_or(0, |sheet| reference::answer::needed(&sheet));
    match case.answer / BYTES_PER_WORD {
        0 => "no word",
        lent if lent + 1 == needed => "a word short",
        _ => "some words",
    }
}

fn odd_lengths(case: &Case) -> Vec<&'static str> {
    let lengths = [
        ("sheet", !case.sheet.len().is_multiple_of(BYTES_PER_WORD)),
        ("answer", !case.answer.is_multiple_of(BYTES_PER_WORD)),
        ("distances", !case.distances.is_multiple_of(BYTES_PER_DISTANCE)),
        ("result", case.result != RESULT_BYTES),
    ];
    let wrong = lengths.iter().filter(|(_, wrong)| *wrong);
    let mut names: Vec<&str> = wrong.map(|(name, _)| *name).collect();
    if names == ["result"] {
        names.push("result, all else right");
    }
    names
}
