//! What accepted sheets show of roads that run one way, and whether it matters there:
//! what would be said if an engine took them for others.

use super::{chosen, is_small};
use reference::answer::Answer;
use reference::distance::Distances;
use reference::evaluation::Evaluation;
use reference::fast::Fast;
use reference::layout::{Layout, MOST_PLACES};
use reference::left::Left;
use reference::margin::Verdict;
use reference::road::{Direction, Road};
use reference::sheet::{Line, Sheet};
use reference::words::{self, kinds};

/// The codes that go by distance: somewhere, everywhere, and the two that go by
/// boundaries as well.
pub const SPATIAL: [u32; 4] = [6, 11, 7, 15];

/// The directions that a road of either layout must have had.
const DIRECTIONS: [&str; 3] =
    ["runs both ways", "runs from first to second", "runs from second to first"];

/// What is looked for in a network.
const OF_NETWORK: [&str; 7] = [
    "all roads one way",
    "some roads one way, some both ways",
    "all roads one way, from each place to each",
    "unlike distances there and back",
    "a distance there and none back",
    "a place that roads lead to and none from",
    "roads one way between more than 64 places",
];

/// What roads may be taken for.
type Otherwise = fn(Direction) -> Direction;

/// A way to take roads for others: for distances, and for where a region ends.
pub struct Taken {
    text: &'static str,
    distances: Otherwise,
    neighbours: Otherwise,
}

/// The ways. Somewhere and everywhere do not ask where a region ends, so that only
/// the first two are of use to them.
pub const TAKEN: [Taken; 6] = [
    Taken { text: "roads ran both ways", distances: both_ways, neighbours: both_ways },
    Taken { text: "roads were turned round", distances: turned, neighbours: turned },
    Taken { text: "distances went both ways", distances: both_ways, neighbours: as_it_is },
    Taken { text: "distances led to the centre", distances: turned, neighbours: as_it_is },
    Taken { text: "regions ended both ways", distances: as_it_is, neighbours: both_ways },
    Taken { text: "regions ended where roads lead in", distances: as_it_is, neighbours: turned },
];

fn as_it_is(direction: Direction) -> Direction {
    direction
}

fn both_ways(_: Direction) -> Direction {
    Direction::BothWays
}

fn turned(direction: Direction) -> Direction {
    direction.turned()
}

impl Taken {
    /// What is said if roads are taken so.
    pub fn evaluated(&self, sheet: &Sheet) -> Fast {
        let taken = |otherwise: Otherwise| {
            let road = |road: &Road| Road { direction: otherwise(road.direction), ..*road };
            sheet.roads.iter().map(road).collect::<Vec<Road>>()
        };
        let distances = Distances::new(sheet.head.places, &taken(self.distances));
        Fast::evaluate(&Sheet { roads: taken(self.neighbours), ..sheet.clone() }, &distances)
    }
}

/// The ways that may matter to a line of a code.
fn taken_of(code: u32) -> &'static [Taken] {
    if matches!(code, 6 | 11) {
        &TAKEN[..2]
    } else {
        &TAKEN
    }
}

/// The texts of all labels.
pub fn labels() -> Vec<String> {
    let roads =
        Layout::BOTH.into_iter().flat_map(|layout| DIRECTIONS.map(|text| of_road(layout, text)));
    let of_codes = SPATIAL.into_iter().flat_map(|code| {
        taken_of(code).iter().flat_map(move |taken| APART.map(|what| of_code(code, what, taken)))
    });
    let rounds = TAKEN.iter().map(of_rounds);
    roads.chain(OF_NETWORK.map(String::from)).chain(of_codes).chain(rounds).collect()
}

/// In what a line may differ.
const APART: [&str; 2] = ["verdicts", "margins"];

fn of_road(layout: Layout, text: &str) -> String {
    format!("a {} road that {text}", if layout.is_wide() { "wide" } else { "narrow" })
}

fn of_code(code: u32, what: &str, taken: &Taken) -> String {
    format!("code {code}, other {what} if {}", taken.text)
}

fn of_rounds(taken: &Taken) -> String {
    format!("other rounds if {}", taken.text)
}

/// Whether a sheet, valid or faulty, has a road that runs one way only.
pub fn is_in(words: &[u32]) -> bool {
    let mut roads = words.iter().filter(|&&word| words::kind(word) == kinds::ROAD_PLACES);
    roads.any(|&word| Direction::told(word).is_some_and(Direction::is_one_way))
}

/// The texts of the labels of a sheet, each once.
pub fn shown(sheet: &Sheet, left: &Left) -> Vec<String> {
    let runs = |direction: Direction| sheet.roads.iter().any(|road| road.direction == direction);
    let of_roads = chosen(&DIRECTIONS, Direction::ALL.map(runs));
    let of_roads: Vec<String> = of_roads.map(|text| of_road(sheet.head.layout, text)).collect();
    if !sheet.roads.iter().any(|road| road.direction.is_one_way()) {
        return of_roads;
    }
    let of_network = chosen(&OF_NETWORK, of_network(sheet)).map(String::from);
    of_roads.into_iter().chain(of_network).chain(of_lines(sheet, left)).collect()
}

/// In the order of [`OF_NETWORK`].
fn of_network(sheet: &Sheet) -> [bool; 7] {
    let places = sheet.head.places;
    let is_one_way = |road: &Road| road.direction.is_one_way();
    let all_one_way = sheet.roads.len() > 1 && sheet.roads.iter().all(is_one_way);
    let is_city = places > MOST_PLACES;
    // Cities are not looked at closely: their distances take long.
    let pairs = if is_city { Vec::new() } else { there_and_back(sheet) };
    let any = |is_so: fn(&(Option<u64>, Option<u64>)) -> bool| pairs.iter().any(is_so);
    let neighbours = sheet.neighbours();
    let mut ends = sheet.ways().map(|(_, to)| to);
    [
        all_one_way,
        !all_one_way && !sheet.roads.iter().all(is_one_way),
        all_one_way && !is_city && !any(|(there, back)| there.is_none() || back.is_none()),
        any(|(there, back)| there.is_some() && back.is_some() && there != back),
        any(|(there, back)| there.is_some() != back.is_some()),
        ends.any(|to| neighbours[to].is_empty()),
        is_city,
    ]
}

/// The distances of every two places, there and back.
fn there_and_back(sheet: &Sheet) -> Vec<(Option<u64>, Option<u64>)> {
    let places = sheet.head.places;
    let distances = Distances::new(places, &sheet.roads);
    let pairs = (0..places).flat_map(|to| (0..to).map(move |from| (from, to)));
    pairs.map(|(from, to)| (distances.between(from, to), distances.between(to, from))).collect()
}

/// The texts of what would be said otherwise, each once.
fn of_lines(sheet: &Sheet, left: &Left) -> Vec<String> {
    let is_spatial = |line: &Line| SPATIAL.contains(&line.operator.code());
    if !is_small(sheet) || !sheet.lines.iter().any(is_spatial) {
        return Vec::new();
    }
    let (Some(answer), Some(outcome)) = (left.whole_answer(), left.outcome()) else {
        return Vec::new();
    };
    let mut texts: Vec<String> = TAKEN
        .iter()
        .flat_map(|taken| {
            let evaluation = taken.evaluated(sheet);
            let rounds = (evaluation.rounds() != outcome.rounds).then(|| of_rounds(taken));
            apart(sheet, &answer, &evaluation, taken).into_iter().chain(rounds)
        })
        .collect();
    texts.sort();
    texts.dedup();
    texts
}

/// The texts of the lines that an evaluation says otherwise though it says the same of
/// what they rest on.
fn apart(sheet: &Sheet, answer: &Answer, evaluation: &Fast, taken: &Taken) -> Vec<String> {
    let differs = |line: usize, is_apart: fn(&Verdict, &Verdict) -> bool| {
        let extent = sheet.lines[line].extent.samples();
        let points = extent.flat_map(|at| (0..answer.places).map(move |place| (at, place)));
        let said = points.map(|(at, place)| evaluation.verdict(line, at, place));
        said.zip(&answer.lines[line].verdicts).any(|(one, other)| is_apart(&one, other))
    };
    let mut texts = Vec::new();
    for (number, line) in sheet.lines.iter().enumerate() {
        let code = line.operator.code();
        let mut below = line.operator.operands().into_iter().flatten();
        let is_asked =
            SPATIAL.contains(&code) && taken_of(code).iter().any(|one| one.text == taken.text);
        if is_asked && !below.any(|line| differs(line, |one, other| one != other)) {
            let shows = [
                differs(number, |one, other| one.yes != other.yes),
                differs(number, |one, other| one.margin != other.margin),
            ];
            texts.extend(chosen(&APART, shows).map(|what| of_code(code, what, taken)));
        }
    }
    texts
}

#[cfg(test)]
mod tests {
    use super::*;
    use crate::judging::answered;
    use crate::Implementation;
    use reference::generate::random::Random;
    use reference::layout::ENOUGH_DISTANCES;
    use reference::sheet::check;
    use reference::worked::{ONE_WAY, ONE_WAY_BACK, WIDE_A};

    fn of_network_of(words: &[u32]) -> Vec<&'static str> {
        let sheet = check(words, ENOUGH_DISTANCES).expect("a valid sheet");
        chosen(&OF_NETWORK, of_network(&sheet)).collect()
    }

    #[test]
    fn roads_are_looked_for_in_words() {
        assert!(is_in(&ONE_WAY) && is_in(&ONE_WAY_BACK));
        assert!(!is_in(&WIDE_A) && !is_in(&[0x2C00_0001, 0x3800_0001]));
    }

    #[test]
    fn the_worked_network() {
        assert_eq!(of_network_of(&ONE_WAY), [OF_NETWORK[4], OF_NETWORK[5]]);
        assert_eq!(of_network_of(&ONE_WAY_BACK), [OF_NETWORK[4], OF_NETWORK[5]]);
    }

    /// At place 1: with the road both ways all three lines differ. With distances alone
    /// both ways code 7 makes a run there, with place 0 cut out, and finds left. With
    /// regions alone place 0 is around it and out of range.
    #[test]
    fn what_the_worked_sheet_would_say() {
        let sheet = check(&ONE_WAY, ENOUGH_DISTANCES).expect("a valid sheet");
        let said = answered(&Implementation, &mut Random::new(1), &ONE_WAY).expect("an answer");
        let texts =
            |at: usize| apart(&sheet, &said.answer, &TAKEN[at].evaluated(&sheet), &TAKEN[at]);
        let of = |code: u32, what: usize, at: usize| of_code(code, APART[what], &TAKEN[at]);
        let both = [of(6, 0, 0), of(6, 1, 0), of(7, 0, 0), of(7, 1, 0), of(15, 1, 0)];
        assert_eq!(texts(0), both);
        assert_eq!(texts(2), [of(7, 0, 2), of(7, 1, 2)]);
        assert_eq!(texts(4), [of(15, 0, 4), of(15, 1, 4)]);
    }
}
