//! The sheets that are timed.

use super::cities::grid_roads;
use reference::builder::SheetBuilder;
use reference::distance::Distances;
use reference::generate::random::Random;
use reference::layout::{Layout, ENOUGH_DISTANCES};
use reference::sheet::{check, Operator};

/// The most samples.
const SAMPLES: u32 = 1024;

/// The most places.
const PLACES: u32 = 64;

/// The samples of sheets on which the two surrounds are timed side by side.
const SAMPLES_OF_RUNS: u32 = 64;

/// The codes of the surrounds without islands, which makes a run for each place
/// within its upper bound, and with them, which makes one.
const WITHOUT_ISLANDS: u32 = 7;
const WITH_ISLANDS: u32 = 15;

/// A square grid of so many places a side with twelve codes, surrounds with
/// islands among them, two signals and so many samples.
pub fn grid(side: u32, samples: u32) -> Vec<u32> {
    let sheet = grid_network(side, samples);
    twelve_codes(sheet, samples, WITH_ISLANDS).end()
}

/// The 8×8 grid, full length.
pub fn full_grid() -> Vec<u32> {
    grid(8, SAMPLES)
}

/// Roads of weight 1 to 3 between the neighbours of a grid, and the samples of
/// two signals that drift over it.
fn grid_network(side: u32, samples: u32) -> SheetBuilder {
    let mut random = Random::new(8);
    let mut sheet = SheetBuilder::new(side * side, 2, samples);
    for (place, neighbour) in grid_roads(side) {
        sheet = sheet.road(place, neighbour, random.field(1, 3));
    }
    sheet.samples(&drifting(side, samples, &mut random))
}

/// Numbers of two signals, time outermost, then place, then signal: two waves
/// that move over the grid, and some noise.
fn drifting(side: u32, samples: u32, random: &mut Random) -> Vec<i32> {
    let points = samples * side * side * 2;
    let number = |point: u32| {
        let (signal, place, time) = (point % 2, point / 2 % (side * side), point / 2 / side / side);
        let along = f64::from(place % side + time / 8) / 3.0;
        let across = f64::from(place / side + (1 + signal) * time / 16) / 2.0;
        let wave = 30.0 * (along.sin() + across.cos());
        wave as i32 + random.between(-12, 12) as i32
    };
    (0..points).map(number).collect()
}

/// Codes 0 to 6 and 8 to 11 once each, and three surrounds of one code with other
/// bounds.
fn twelve_codes(sheet: SheetBuilder, samples: u32, surround: u32) -> SheetBuilder {
    let ahead = 20.min(samples / 4);
    // Of few samples no line can look at another than its own.
    let next = ahead.min(1);
    sheet
        .truth()
        .at_least(0, -20)
        .at_most(1, 10)
        .line(3, 1, 0)
        .line(4, 1, 2)
        .bounded(5, 1, 2, (next, ahead))
        .bounded(6, 4, 0, (1, 5))
        .bounded(surround, 1, 2, (0, 6))
        .line(8, 3, 2)
        .bounded(9, 4, 0, (0, ahead))
        .bounded(10, 8, 0, (0, ahead))
        .bounded(11, 8, 0, (0, 4))
        .bounded(surround, 8, 6, (2, 8))
        .bounded(surround, 1, 0, (1, 100))
}

/// A path of 64 places on which the lowest number wanders from one end to the
/// other, a place a round: 64 rounds.
pub fn path() -> Vec<u32> {
    let mut random = Random::new(64);
    let sheet = SheetBuilder::new(PLACES, 2, SAMPLES);
    let sheet = (1..PLACES).fold(sheet, |sheet, place| sheet.road(place - 1, place, 1));
    let numbers: Vec<i32> = (0..SAMPLES).flat_map(|_| wandering(&mut random)).collect();
    let sheet = sheet.samples(&numbers);
    sheet.at_least(0, 0).at_least(1, 0).bounded(WITH_ISLANDS, 0, 1, (0, PLACES)).end()
}

/// Left lowest at the last place, right below all of it.
fn wandering(random: &mut Random) -> Vec<i32> {
    let lowest = random.between(-20, 20) as i32;
    let place = |place: u32| {
        let above = if place + 1 == PLACES { 0 } else { random.field(1, 40) as i32 };
        [lowest + above, -100]
    };
    (0..PLACES).flat_map(place).collect()
}

/// All 2,016 roads between 64 places, with a wide surround and a narrow one.
pub fn full_graph() -> Vec<u32> {
    let mut random = Random::new(2016);
    let mut sheet = SheetBuilder::new(PLACES, 2, SAMPLES);
    for (first, second) in full_roads() {
        sheet = sheet.road(first, second, random.field(1, 100));
    }
    let numbers: Vec<i32> =
        (0..PLACES * SAMPLES * 2).map(|_| random.between(-50, 50) as i32).collect();
    sheet
        .samples(&numbers)
        .at_least(0, 0)
        .at_least(1, 0)
        .bounded(WITH_ISLANDS, 0, 1, (0, 1000))
        .bounded(WITH_ISLANDS, 0, 1, (3, 12))
        .end()
}

/// A sheet of a million words in either layout: 64 places with all roads, as many
/// signals and samples as there can be, and one line. Nothing but its words takes
/// time in a converter.
pub fn million(layout: Layout) -> Vec<u32> {
    const SIGNALS: u32 = 16;
    let mut random = Random::new(1_048_576);
    let sheet = SheetBuilder::laid_out(layout, PLACES, SIGNALS, SAMPLES);
    let sheet = full_roads()
        .fold(sheet, |sheet, (first, second)| sheet.road(first, second, random.field(1, 100)));
    let numbers: Vec<i32> =
        (0..PLACES * SIGNALS * SAMPLES).map(|_| random.between(-50, 50) as i32).collect();
    sheet.samples(&numbers).at_least(0, 0).end()
}

/// All 2,016 roads between 64 places.
fn full_roads() -> impl Iterator<Item = (u32, u32)> {
    (0..PLACES).flat_map(|first| (first + 1..PLACES).map(move |second| (first, second)))
}

/// The 6×6 grid with so many lines: two of the signals, then surrounds, untils
/// and ranges in turn.
pub fn grid_of_lines(lines: u32) -> Vec<u32> {
    let sheet = grid_network(6, 256).at_least(0, -20).at_most(1, 10);
    let add = |sheet: SheetBuilder, line: u32| match line % 3 {
        0 => sheet.bounded(5, 0, 1, (0, 10)),
        1 => sheet.bounded(6, 0, 0, (0, 5)),
        _ => sheet.bounded(WITH_ISLANDS, 0, 1, (0, 6)),
    };
    (2..lines).fold(sheet, add).end()
}

/// The 8×8 grid with no surround: until, eventually and always over windows
/// of so many samples ahead.
pub fn grid_of_windows(ahead: u32) -> Vec<u32> {
    grid_network(8, SAMPLES)
        .at_least(0, -20)
        .at_most(1, 10)
        .bounded(5, 0, 1, (0, ahead))
        .bounded(9, 0, 0, (0, ahead))
        .bounded(10, 1, 0, (0, ahead))
        .end()
}

/// Two sheets of the same words but for the codes of surrounds.
pub struct Readings {
    /// The sheet with islands.
    pub with_islands: Vec<u32>,
    /// The sheet without.
    pub without_islands: Vec<u32>,
}

impl Readings {
    fn of(sheet: impl Fn(u32) -> Vec<u32>) -> Self {
        Readings { with_islands: sheet(WITH_ISLANDS), without_islands: sheet(WITHOUT_ISLANDS) }
    }
}

/// The 8×8 grid of 64 samples with one surround.
pub fn surrounds(bounds: (u32, u32)) -> Readings {
    Readings::of(|code| conditions(SAMPLES_OF_RUNS).bounded(code, 0, 1, bounds).end())
}

/// The 8×8 grid of 64 samples with twelve codes, three of its lines surrounds.
pub fn grids_of_surrounds() -> Readings {
    let network = || grid_network(8, SAMPLES_OF_RUNS);
    Readings::of(|code| twelve_codes(network(), SAMPLES_OF_RUNS, code).end())
}

/// How many runs without islands that are not alike a centre has, on an average
/// over a sheet's surrounds: one for each other place within the upper bound, and
/// one for all beyond, where left is masked and cutting out changes nothing.
///
/// # Panics
///
/// If the sheet is not valid.
pub fn runs_of_centre(words: &[u32]) -> f64 {
    let sheet = check(words, ENOUGH_DISTANCES).expect("a valid sheet");
    let places = sheet.head.places;
    let distances = Distances::new(places, &sheet.roads);
    let uppers = sheet.lines.iter().filter_map(|line| match line.operator {
        Operator::Surround { bounds, .. } => Some(u64::from(bounds.upper)),
        _ => None,
    });
    let runs = |centre: usize, upper: u64| {
        let reached = (0..places).filter_map(|place| distances.between(centre, place));
        let reached: Vec<u64> = reached.collect();
        let others = reached.iter().filter(|&&distance| distance <= upper).count() - 1;
        others + usize::from(reached.iter().any(|&distance| distance > upper))
    };
    let all: Vec<usize> = uppers
        .flat_map(|upper| (0..places).map(move |centre| (centre, upper)))
        .map(|(centre, upper)| runs(centre, upper))
        .collect();
    all.iter().sum::<usize>() as f64 / all.len() as f64
}

/// Two sheets of the same words but for codes: one looks ahead, the other back.
pub struct BothWays {
    /// The sheet that looks ahead.
    pub ahead: Vec<u32>,
    /// The sheet that looks back, over the same windows.
    pub back: Vec<u32>,
}

/// The 8×8 grid with until in the one sheet, since in the other.
pub fn until_and_since(bounds: (u32, u32)) -> BothWays {
    until_and_since_over(&[bounds])
}

/// The same with sixty lines, whose windows have 2 to 5 samples in turn: what it
/// costs to begin a window shows here, and hardly what it costs to read on.
pub fn short_windows() -> BothWays {
    const LINES: usize = 60;
    let bounds: Vec<(u32, u32)> = [(0, 1), (0, 2), (0, 3), (0, 4)].repeat(LINES / 4);
    until_and_since_over(&bounds)
}

fn until_and_since_over(bounds: &[(u32, u32)]) -> BothWays {
    let sheet = |code: u32| {
        let add = |sheet: SheetBuilder, &bounds: &(u32, u32)| sheet.bounded(code, 0, 1, bounds);
        bounds.iter().fold(conditions(SAMPLES), add).end()
    };
    BothWays { ahead: sheet(5), back: sheet(12) }
}

/// The 8×8 grid with eventually and always in the one sheet, once and
/// historically in the other.
pub fn windows_both_ways(bounds: (u32, u32)) -> BothWays {
    let sheet = |some: u32, all: u32| {
        conditions(SAMPLES).bounded(some, 0, 0, bounds).bounded(all, 1, 0, bounds).end()
    };
    BothWays { ahead: sheet(9, 10), back: sheet(13, 14) }
}

/// The 8×8 grid of so many samples with a line for each of its signals.
fn conditions(samples: u32) -> SheetBuilder {
    grid_network(8, samples).at_least(0, -20).at_most(1, 10)
}

/// The 8×8 grid with no surround: somewhere and everywhere up to a distance.
pub fn grid_of_ranges(upper: u32) -> Vec<u32> {
    grid_network(8, SAMPLES)
        .at_least(0, -20)
        .bounded(6, 0, 0, (0, upper))
        .bounded(11, 0, 0, (0, upper))
        .end()
}
