//! What raised samples show.

use super::FALLING;
use crate::alike::{samples, Alike, Point};
use crate::reached::one_way::{self, SPATIAL};
use crate::reached::{chosen, Reached};
use reference::generate::valid::MOST;
use reference::layout::ENOUGH_DISTANCES;
use reference::margin::Margin;
use reference::sheet::{check, Line, LAST_CODE};
use std::collections::BTreeSet;

/// What is looked for in the samples of a pair.
const OF_SAMPLES: [&str; 6] = [
    "no sample raised",
    "one sample of several raised",
    "some samples of several raised, but not all",
    "all samples raised",
    "raised by 2 at the most",
    "raised to the greatest sample",
];

/// What is looked for in the answers of a pair.
const OF_ANSWERS: [&str; 6] = [
    "a no that became a yes",
    "a margin that rose",
    "a margin that rose by as much as the sample that rose most",
    "minus infinity that stayed",
    "plus infinity that stayed",
    "nothing rose although samples did",
];

/// What is looked for in a pair whose table has a code that may fall.
const OF_FALL: [&str; 2] = ["a yes lost", "a margin lowered"];

/// What is looked for in lines, beside their codes.
const DEEP: &str = "a no that became a yes on top of four lines";

/// The codes that look back, which have lines that begin late.
const BACK: [u32; 3] = [12, 13, 14];

/// How many lines such a line and those below it are.
const LINES_OF_DEEP: usize = 5;

const PAIR: &str = "raising of two sheets";

/// What a run must have reached.
pub fn labels() -> impl Iterator<Item = String> {
    let of_pair = OF_SAMPLES.into_iter().chain(OF_ANSWERS).chain([DEEP]).map(label);
    let allowed = || (0..=LAST_CODE).filter(|code| !FALLING.contains(code));
    // What is true is a yes from the start.
    let turned = allowed().filter(|&code| code > 0).map(turned_label);
    let falls = FALLING.into_iter().flat_map(|code| OF_FALL.map(|text| fall_label(code, text)));
    std::iter::once(PAIR.into())
        .chain(of_pair)
        .chain(allowed().map(code_label))
        .chain(turned)
        .chain(BACK.into_iter().map(late_label))
        .chain(SPATIAL.into_iter().map(one_way_label))
        .chain(falls)
}

fn label(text: &str) -> String {
    format!("raising: {text}")
}

fn code_label(code: u32) -> String {
    format!("raising: code {code}")
}

fn turned_label(code: u32) -> String {
    format!("raising: code {code}, a no that became a yes")
}

fn late_label(code: u32) -> String {
    format!("raising: code {code}, a no that became a yes on a line that begins late")
}

fn one_way_label(code: u32) -> String {
    format!("raising: code {code}, a no that became a yes where roads run one way")
}

fn fall_label(code: u32, text: &str) -> String {
    format!("raising: a table with code {code} falls, {text}")
}

/// Counts what a pair shows whose table has no code that may fall.
pub fn count(alike: &Alike, reached: &mut Reached) {
    reached.count(PAIR);
    let of_samples = chosen(&OF_SAMPLES, of_samples(alike));
    let of_answers = chosen(&OF_ANSWERS, of_answers(alike));
    for label in of_samples.chain(of_answers).map(label).chain(of_lines(alike)) {
        reached.count(&label);
    }
}

/// Counts what a pair shows whose table has a code that may fall.
pub fn count_falls(alike: &Alike, code: u32, reached: &mut Reached) {
    let any = |is_so: fn(&Point) -> bool| alike.points().any(|point| is_so(&point));
    let falls =
        [any(|point| point.x.yes && !point.y.yes), any(|point| point.x.margin > point.y.margin)];
    for text in chosen(&OF_FALL, falls) {
        reached.count(&fall_label(code, text));
    }
}

/// In the order of [`OF_SAMPLES`].
fn of_samples(alike: &Alike) -> [bool; 6] {
    let moves: Vec<i64> = alike.moves().collect();
    let raised = moves.iter().filter(|&&by| by > 0).count();
    let to_the_greatest = |(by, sample): (i64, i64)| by > 0 && sample == MOST.into();
    let of_y = samples(&alike.sheets[1]);
    [
        raised == 0,
        raised == 1 && moves.len() > 1,
        1 < raised && raised < moves.len(),
        raised == moves.len(),
        (1..=2).contains(&alike.apart()),
        moves.iter().copied().zip(of_y).any(to_the_greatest),
    ]
}

/// In the order of [`OF_ANSWERS`].
fn of_answers(alike: &Alike) -> [bool; 6] {
    let apart = alike.apart();
    let any =
        |is_so: &dyn Fn(&Point) -> bool| apart > 0 && alike.points().any(|point| is_so(&point));
    let stayed = |infinity: Margin| {
        any(&|point: &Point| point.x.margin == infinity && point.y.margin == infinity)
    };
    [
        any(&Point::became_yes),
        any(&|point| point.x.margin < point.y.margin),
        any(&|point| point.rise() == Some(apart)),
        stayed(Margin::MinusInfinity),
        stayed(Margin::PlusInfinity),
        apart > 0 && alike.points().all(|point| point.x == point.y),
    ]
}

/// The labels of the lines of a pair, each once.
fn of_lines(alike: &Alike) -> BTreeSet<String> {
    let sheet = check(&alike.sheets[0], ENOUGH_DISTANCES).expect("a valid sheet");
    let depths = sheet.depths();
    let turned = alike.points().filter(Point::became_yes).map(|point| point.line);
    let turned: BTreeSet<usize> = turned.collect();
    let code = |at: usize| sheet.lines[at].operator.code();
    let is_one_way = one_way::is_in(&alike.sheets[0]);
    let is_by_roads = |&code: &u32| is_one_way && SPATIAL.contains(&code);
    let of_one_way = turned.iter().map(|&at| code(at)).filter(is_by_roads).map(one_way_label);
    let of_turned = turned.iter().flat_map(|&at| of_turned(&sheet.lines[at], depths[at]));
    let codes = sheet.lines.iter().map(|line| code_label(line.operator.code()));
    codes.chain(of_turned).chain(of_one_way).collect()
}

/// The labels of a line on which a no became a yes.
fn of_turned(line: &Line, depth: usize) -> impl Iterator<Item = String> {
    let code = line.operator.code();
    let is_late = line.extent.first > 0 && BACK.contains(&code);
    let late = is_late.then(|| late_label(code));
    let deep = (depth >= LINES_OF_DEEP).then(|| label(DEEP));
    [Some(turned_label(code)), late, deep].into_iter().flatten()
}

#[cfg(test)]
mod tests {
    use super::*;
    use crate::Implementation;
    use reference::builder::SheetBuilder;
    use reference::generate::random::Random;
    use reference::worked::{AFTER_RAISING, BEFORE_RAISING};

    fn judged(x: &[u32], y: &[u32]) -> Alike {
        let sheets = [x.to_vec(), y.to_vec()];
        Alike::judged(&Implementation, &mut Random::new(1), sheets).expect("answers")
    }

    /// Two sheets of one place, with these numbers of so many signals.
    fn pair(
        signals: u32,
        numbers: [[i32; 2]; 2],
        lines: fn(SheetBuilder) -> SheetBuilder,
    ) -> Alike {
        let [x, y] = numbers.map(|numbers| {
            lines(SheetBuilder::new(1, signals, 2 / signals).samples(&numbers)).end()
        });
        judged(&x, &y)
    }

    fn texts(alike: &Alike) -> Vec<&'static str> {
        let of_samples = chosen(&OF_SAMPLES, of_samples(alike));
        of_samples.chain(chosen(&OF_ANSWERS, of_answers(alike))).collect()
    }

    /// Two of four samples rise by 2, and so do some margins.
    #[test]
    fn the_worked_pair() {
        let alike = judged(&BEFORE_RAISING, &AFTER_RAISING);
        let expected = [OF_SAMPLES[2], OF_SAMPLES[4], OF_ANSWERS[0], OF_ANSWERS[1], OF_ANSWERS[2]];
        assert_eq!(texts(&alike), expected);
        let codes = [1, 10, 11, 7];
        let expected = codes.into_iter().flat_map(|code| [code_label(code), turned_label(code)]);
        assert_eq!(of_lines(&alike), expected.collect());
    }

    /// Somewhere away from a lone place is nowhere, whatever the samples are.
    #[test]
    fn infinities_stay() {
        let lines = |sheet: SheetBuilder| sheet.truth().bounded(6, 0, 0, (1, 2));
        let expected = [OF_SAMPLES[1], OF_SAMPLES[5], OF_ANSWERS[3], OF_ANSWERS[4], OF_ANSWERS[5]];
        assert_eq!(texts(&pair(1, [[0, 5], [MOST, 5]], lines)), expected);
        assert_eq!(texts(&pair(1, [[0, 5], [0, 5]], lines)), [OF_SAMPLES[0]]);
    }

    /// Signal 1, which rises by 4, is in no line.
    #[test]
    fn a_margin_may_rise_by_less_than_a_sample() {
        let alike = pair(2, [[0, 0], [1, 4]], |sheet| sheet.at_least(0, 5));
        assert_eq!(texts(&alike), [OF_SAMPLES[3], OF_ANSWERS[1]]);
    }

    /// Line 1 begins late and line 2 does not; line 5 is on top of 4, 3, 2 and 0.
    #[test]
    fn lines_that_begin_late_and_deep_ones() {
        let alike = pair(1, [[0, 0], [0, 1]], |sheet| {
            let sheet = sheet.at_least(0, 1).bounded(13, 0, 0, (0, 1)).bounded(14, 0, 0, (0, 0));
            sheet.line(4, 2, 2).line(8, 3, 3).line(4, 4, 4)
        });
        let codes = [1, 13, 14, 4, 8];
        let of_codes = codes.into_iter().flat_map(|code| [code_label(code), turned_label(code)]);
        let expected = of_codes.chain([late_label(13), label(DEEP)]);
        assert_eq!(of_lines(&alike), expected.collect());
    }
}
