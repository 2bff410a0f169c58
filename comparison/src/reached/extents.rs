//! What accepted sheets show of where lines begin and end.

use super::chosen;
use reference::sheet::{Extent, Line, Operator, Reach, Sheet, LAST_CODE};

/// The first code that has an operand.
const FIRST_WITH_OPERAND: u32 = 3;

/// Codes that look ahead and codes that look back.
pub const AHEAD: [u32; 3] = [5, 9, 10];
pub const BACK: [u32; 3] = [12, 13, 14];

/// Codes with two operands.
pub const WITH_TWO: [u32; 6] = [4, 5, 7, 8, 12, 15];

/// What is looked for in a line of two operands.
const OF_TWO: [&str; 5] = [
    "left begins later",
    "right begins later",
    "left ends sooner",
    "right ends sooner",
    "one operand begins late, the other ends early",
];

/// What is looked for in a line that looks back.
const OF_BACK: [&str; 4] = [
    "one sample left by its upper bound",
    "upper bound 0",
    "bounds apart, the lower above 0",
    "over a line that ends early, upper bound above 0",
];

const OVER_LATE: &str = "over a line that begins late";
const AHEAD_OVER_LATE: &str = "over a line that begins late, upper bound above 0";
const LAST_FIRST: &str = "first sample 1,023";

/// All labels.
pub fn labels() -> Vec<String> {
    let all = |codes: &[u32], texts: &[&str]| -> Vec<String> {
        codes.iter().flat_map(|&code| texts.iter().map(move |text| of_code(code, text))).collect()
    };
    let with_operand: Vec<u32> = (FIRST_WITH_OPERAND..=LAST_CODE).collect();
    let mut labels = all(&with_operand, &[OVER_LATE]);
    labels.extend(all(&WITH_TWO, &OF_TWO));
    labels.extend(all(&AHEAD, &[AHEAD_OVER_LATE]));
    labels.extend(all(&BACK, &OF_BACK));
    labels.push(LAST_FIRST.into());
    labels
}

fn of_code(code: u32, text: &str) -> String {
    format!("code {code}, {text}")
}

/// The labels of a sheet, once for each of its lines.
pub fn shown(sheet: &Sheet) -> Vec<String> {
    sheet.lines.iter().flat_map(|line| shown_by(sheet, line)).collect()
}

fn shown_by(sheet: &Sheet, line: &Line) -> Vec<String> {
    let operator = &line.operator;
    let samples = sheet.head.samples;
    let operands = operator.operands().map(|line| line.map(|line| sheet.lines[line].extent));
    let begin_late = operands.iter().flatten().any(|extent| extent.first > 0);
    let mut shown = Vec::new();
    if begin_late {
        shown.push(OVER_LATE);
    }
    if let [Some(left), Some(right)] = operands {
        shown.extend(chosen(&OF_TWO, of_two(left, right, samples)));
    }
    match operator.reach() {
        Reach::Ahead(1..) if begin_late => shown.push(AHEAD_OVER_LATE),
        Reach::Back(_) => {
            shown.extend(chosen(&OF_BACK, of_back(operator, &operands, line, samples)))
        }
        _ => {}
    }
    let last_first = (line.extent.first == 1023).then(|| LAST_FIRST.to_string());
    shown.into_iter().map(|text| of_code(operator.code(), text)).chain(last_first).collect()
}

/// In the order of [`OF_TWO`].
fn of_two(left: Extent, right: Extent, samples: usize) -> [bool; 5] {
    let late_and_early = |one: Extent, other: Extent| one.first > 0 && other.end < samples;
    [
        left.first > right.first,
        right.first > left.first,
        left.end < right.end,
        right.end < left.end,
        late_and_early(left, right) || late_and_early(right, left),
    ]
}

/// In the order of [`OF_BACK`].
fn of_back(
    operator: &Operator,
    operands: &[Option<Extent>],
    line: &Line,
    samples: usize,
) -> [bool; 4] {
    let (lower, upper) = operator.bounds().map_or((0, 0), |bounds| (bounds.lower, bounds.upper));
    let end_early = operands.iter().flatten().any(|extent| extent.end < samples);
    [
        upper > 0 && line.extent.length() == 1,
        upper == 0,
        lower > 0 && lower < upper,
        upper > 0 && end_early,
    ]
}
