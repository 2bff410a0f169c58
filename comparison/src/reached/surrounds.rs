//! What accepted sheets show of surrounds, without islands (code 7) and with
//! them (code 15).

use super::chosen;
use super::runs::Judged;
use reference::answer::Answer;
use reference::distance::Distances;
use reference::layout::MOST_PLACES;
use reference::left::Left;
use reference::margin::{Margin, Verdict};
use reference::sheet::{Line, Operator, Sheet, MOST_SAMPLES};

const WITHOUT: u32 = 7;
const WITH: u32 = 15;

/// What is looked for in the network around a surround of either code.
const OF_BOTH: [&str; 8] = [
    "a lone place",
    "some places reached, others not",
    "a ball that ends before the network does",
    "a ball of two places or more that holds all",
    "64 places in a ball",
    "above 16 places in a ball, above 16 samples",
    "in circles of roads, above 16 places and 16 samples",
    "in circles of roads, 64 places and 1,024 samples",
];

/// What is looked for in the runs without islands.
const OF_RUNS: [&str; 5] = [
    "rounds 0",
    "64 rounds, fewer of code 15",
    "an island, where code 15 is above minus infinity",
    "rounds that only a run beyond the ball gives",
    "rounds that only a run with a place cut out gives",
];

/// What is looked for where one table has both readings of a surround.
const OF_PAIR: [&str; 5] = [
    "margins apart",
    "verdicts apart",
    "verdicts apart, margins 0",
    "minus infinity and a yes",
    "the same",
];

/// The texts of all labels.
pub fn labels() -> Vec<String> {
    let both = [WITHOUT, WITH].into_iter();
    let of_both = both.flat_map(|code| OF_BOTH.map(|text| of_code(code, text)));
    let of_runs = OF_RUNS.map(|text| of_code(WITHOUT, text));
    of_both.chain(of_runs).chain(OF_PAIR.map(of_pair)).collect()
}

fn of_code(code: u32, text: &str) -> String {
    format!("code {code}, {text}")
}

fn of_pair(text: &str) -> String {
    format!("codes 7 and 15 of one surround, {text}")
}

/// The texts of the labels of a sheet, those of the network once for each line.
pub fn shown(sheet: &Sheet, left: &Left) -> Vec<String> {
    let surrounds = sheet.lines.iter().filter(|line| line.operator.surround().is_some());
    let surrounds: Vec<&Line> = surrounds.collect();
    let (false, Some(answer)) = (surrounds.is_empty(), left.whole_answer()) else {
        return Vec::new();
    };
    let distances = Distances::new(sheet.head.places, &sheet.roads);
    let of_lines = surrounds.iter().flat_map(|line| {
        let shown = chosen(&OF_BOTH, of_network(sheet, &distances, line));
        shown.map(|text| of_code(line.operator.code(), text))
    });
    let judged = Judged::new(sheet, &answer, &distances);
    let rounds = left.outcome().map_or(0, |outcome| outcome.rounds);
    let of_runs = chosen(&OF_RUNS, of_runs(&judged, &surrounds, rounds));
    let of_pairs = pairs(sheet, &answer).into_iter().flat_map(|(one, other)| {
        let shown = chosen(&OF_PAIR, apart(&one, &other));
        shown.map(of_pair)
    });
    of_lines.chain(of_runs.map(|text| of_code(WITHOUT, text))).chain(of_pairs).collect()
}

/// How many other places a centre can reach, and how many of them are within its
/// upper bound.
struct Around {
    reached: usize,
    in_ball: usize,
}

/// In the order of [`OF_BOTH`].
fn of_network(sheet: &Sheet, distances: &Distances, line: &Line) -> [bool; 8] {
    let (places, samples) = (sheet.head.places, sheet.head.samples);
    let upper = line.operator.bounds().map_or(0, |bounds| bounds.upper.into());
    let around = |centre: usize| {
        let others = (0..places).filter(|&other| other != centre);
        let others = others.filter_map(|other| distances.between(centre, other));
        let others: Vec<u64> = others.collect();
        let in_ball = others.iter().filter(|&&distance| distance <= upper).count();
        Around { reached: others.len(), in_ball }
    };
    let centres: Vec<Around> = (0..places).map(around).collect();
    let is_lone =
        |place: usize| !sheet.roads.iter().any(|road| road.first == place || road.second == place);
    let any = |is_so: &dyn Fn(&Around) -> bool| centres.iter().any(is_so);
    // A network with as many roads as places has circles.
    let circles = sheet.roads.len() >= places;
    [
        (0..places).any(is_lone),
        any(&|centre| centre.reached > 0 && centre.reached + 1 < places),
        any(&|centre| centre.in_ball < centre.reached),
        any(&|centre| centre.reached > 0 && centre.in_ball == centre.reached),
        any(&|centre| centre.in_ball + 1 == MOST_PLACES),
        any(&|centre| centre.in_ball >= 16) && line.extent.length() > 16,
        circles && places > 16 && samples > 16,
        circles && places == MOST_PLACES && samples == MOST_SAMPLES,
    ]
}

/// In the order of [`OF_RUNS`].
fn of_runs(judged: &Judged, surrounds: &[&Line], rounds: u64) -> [bool; 5] {
    let is_without = |line: &&&Line| matches!(line.operator, Operator::Surround { .. });
    let without: Vec<&&Line> = surrounds.iter().filter(is_without).collect();
    if without.is_empty() {
        return [false; 5];
    }
    let many = rounds == MOST_PLACES as u64 && judged.rounds_with_islands() < rounds;
    if !judged.is_small() {
        return [rounds == 0, many, false, false, false];
    }
    let counts = judged.rounds();
    [
        rounds == 0,
        many,
        without.iter().any(|line| shows_island(judged, line)),
        counts.beyond > counts.within.max(counts.with_islands),
        counts.within > counts.plain.max(counts.with_islands),
    ]
}

/// Whether some centre has an island alone, which counts for code 15.
fn shows_island(judged: &Judged, line: &Line) -> bool {
    let Some((left, _, bounds)) = line.operator.surround() else {
        return false;
    };
    let counts = |sample: usize, centre: usize| {
        judged.least_left(left, sample, centre) > Margin::MinusInfinity
    };
    let mut islands = judged.places().filter(|&centre| judged.is_island(centre, bounds));
    islands.any(|centre| line.extent.samples().any(|sample| counts(sample, centre)))
}

/// The verdicts of the surrounds that a table has without and with islands.
fn pairs(sheet: &Sheet, answer: &Answer) -> Vec<(Vec<Verdict>, Vec<Verdict>)> {
    let with = |operator: Operator| match operator {
        Operator::Surround { left, right, bounds } => {
            let other = Operator::SurroundOrIsland { left, right, bounds };
            sheet.lines.iter().position(|line| line.operator == other)
        }
        _ => None,
    };
    let lines = sheet.lines.iter().enumerate();
    let numbers = lines.filter_map(|(one, line)| with(line.operator).map(|other| (one, other)));
    let verdicts = |line: usize| answer.lines[line].verdicts.clone();
    numbers.map(|(one, other)| (verdicts(one), verdicts(other))).collect()
}

/// In the order of [`OF_PAIR`].
fn apart(without: &[Verdict], with: &[Verdict]) -> [bool; 5] {
    let any = |is_so: fn(&Verdict, &Verdict) -> bool| {
        without.iter().zip(with).any(|(without, with)| is_so(without, with))
    };
    [
        any(|without, with| without.margin != with.margin),
        any(|without, with| without.yes != with.yes),
        any(|without, with| without.yes != with.yes && without.margin == with.margin),
        any(|without, with| without.margin == Margin::MinusInfinity && with.yes),
        any(|without, with| without == with),
    ]
}
