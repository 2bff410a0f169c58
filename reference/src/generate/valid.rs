//! Valid sheets.

use super::random::Random;
use super::{layout, network, runs, table};
use crate::builder::SheetBuilder;
use crate::layout::{Front, MOST_PLACES};
use crate::road::Road;
use crate::sheet::{MOST_LINES, MOST_SAMPLES, MOST_SIGNALS};

/// The least sample and constant.
pub const LEAST: i32 = -67_108_864;

/// The greatest sample and constant.
pub const MOST: i32 = 67_108_863;

/// Counts of samples around powers of two. An engine that takes samples in
/// blocks goes wrong, if it does, at the edge of one.
const AROUND_BLOCKS: [usize; 15] = [9, 15, 16, 17, 31, 32, 33, 47, 48, 49, 63, 64, 65, 127, 129];

/// How large a sheet is to be.
#[derive(Clone, Copy, Debug)]
struct Sizes {
    places: usize,
    signals: usize,
    samples: usize,
    lines: usize,
}

/// From which numbers samples and constants are drawn.
#[derive(Clone, Copy, Debug)]
pub enum Numbers {
    /// From few numbers, so that many are equal.
    Ties,
    /// From a few dozen.
    Small,
    /// The ends of the range and what lies next to 0.
    Extreme,
    /// From the whole range.
    Any,
}

impl Numbers {
    /// One such number.
    pub fn draw(self, random: &mut Random) -> i32 {
        match self {
            Numbers::Ties => random.between(-2, 2) as i32,
            Numbers::Small => random.between(-30, 30) as i32,
            Numbers::Extreme => random.pick(&[LEAST, LEAST + 1, -1, 0, 1, MOST - 1, MOST]),
            Numbers::Any => random.between(LEAST.into(), MOST.into()) as i32,
        }
    }

    /// So many such numbers.
    pub fn draw_all(self, random: &mut Random, count: usize) -> Vec<i32> {
        (0..count).map(|_| self.draw(random)).collect()
    }
}

/// The words of a valid sheet of at most so many places: mostly small,
/// sometimes at a limit.
pub fn sheet(random: &mut Random, most_places: usize) -> Vec<u32> {
    let sizes = sizes(random, most_places);
    sheet_of(random, sizes)
}

/// The words of a valid sheet of at most so many places, now and then of a small
/// city instead.
pub fn sheet_or_city(random: &mut Random, most_places: usize) -> Vec<u32> {
    if random.chance(2) {
        city(random, 2 * MOST_PLACES)
    } else {
        sheet(random, most_places)
    }
}

/// The words of a valid wide sheet of more than 64 places, and at most so many.
pub fn city(random: &mut Random, most_places: usize) -> Vec<u32> {
    let sizes = city_of(random, most_places);
    sheet_of(random, sizes)
}

/// The words of a valid sheet of one sample, one line or two, and few more than 64
/// places, for tables that grow without regard to what their lines cost.
pub fn bare_city(random: &mut Random) -> Vec<u32> {
    let places = random.count(MOST_PLACES + 1, MOST_PLACES + 8);
    bare(random, places)
}

/// One sample of one signal at so many places, and one line or two.
fn bare(random: &mut Random, places: usize) -> Vec<u32> {
    let lines = random.count(1, 2);
    sheet_of(random, Sizes { places, signals: 1, samples: 1, lines })
}

/// The words of a valid sheet of one sample, one line or two, and as many places as
/// a narrow sheet can have, or one or two more or fewer.
pub fn around_limit(random: &mut Random) -> Vec<u32> {
    let most = MOST_PLACES;
    let places = random.pick(&[most - 1, most, most, most, most + 1, most + 1, most + 2]);
    bare(random, places)
}

/// The words of a small valid sheet.
pub fn small_sheet(random: &mut Random, most_places: usize) -> Vec<u32> {
    let sizes = small(random, most_places);
    sheet_of(random, sizes)
}

/// The words of a valid sheet that is to be damaged: half of these are small,
/// the others large in one way or another. Hardly any is judged to the end, so
/// size costs little.
pub fn sheet_to_damage(random: &mut Random, most_places: usize) -> Vec<u32> {
    let sizes = sizes_to_damage(random, most_places);
    sheet_of(random, sizes)
}

fn sheet_of(random: &mut Random, sizes: Sizes) -> Vec<u32> {
    let Sizes { places, signals, samples, lines } = sizes;
    let numbers = random.pick(&[Numbers::Ties, Numbers::Small, Numbers::Extreme, Numbers::Any]);
    let roads = network::roads(random, places);
    let readings = numbers.draw_all(random, places * signals * samples);
    let front = front(random, places, signals, samples);
    let sheet = recorded(&front, &roads, &readings);
    let source = table::Source {
        signals,
        samples,
        numbers,
        readings: &readings,
        weights: roads.iter().map(|road| road.weight).collect(),
        widest: runs::widest(random, places, samples, &roads),
    };
    table::lines(random, sheet, &source, lines).end()
}

/// The front of a sheet of so many places, signals and samples, in one layout or
/// the other.
pub fn front(random: &mut Random, places: usize, signals: usize, samples: usize) -> Front {
    Front { layout: layout(random, places), places, middle: signals, samples }
}

/// A sheet up to its table: its front, the roads, and the numbers sampled.
pub fn recorded(front: &Front, roads: &[Road], readings: &[i32]) -> SheetBuilder {
    roads.iter().fold(SheetBuilder::of(front), SheetBuilder::with_road).samples(readings)
}

fn small(random: &mut Random, most_places: usize) -> Sizes {
    Sizes {
        places: random.count(1, most_places.min(6)),
        signals: random.count(1, 3),
        samples: random.count(1, 8),
        lines: random.count(1, 10),
    }
}

/// Small sizes with, now and then, one or another at its limit; all of them at
/// once would make single sheets of millions of words. Beyond 64 places only
/// cities have.
fn sizes(random: &mut Random, most_places: usize) -> Sizes {
    let (city, most_places) = (most_places, most_places.min(MOST_PLACES));
    let small = small(random, most_places);
    match random.below(200) {
        0..=29 => Sizes {
            places: random.count(1, most_places.min(16)),
            lines: random.count(1, 16),
            ..small
        },
        30..=37 => Sizes {
            places: random.count(most_places / 2 + 1, most_places),
            samples: random.count(1, 3),
            ..small
        },
        38..=39 => Sizes { places: most_places, samples: random.count(1, 2), ..small },
        40..=42 => Sizes {
            samples: random.pick(&[100, MOST_SAMPLES - 1, MOST_SAMPLES, MOST_SAMPLES]),
            places: random.count(1, most_places.min(3)),
            signals: random.pick(&[1, 1, 1, MOST_SIGNALS]),
            lines: random.count(3, 8),
        },
        43..=46 => Sizes { lines: random.count(MOST_LINES - 4, MOST_LINES), ..small },
        47..=50 => Sizes { signals: MOST_SIGNALS, ..small },
        51..=60 => Sizes {
            samples: random.pick(&AROUND_BLOCKS),
            places: random.count(1, most_places.min(12)),
            signals: random.count(1, 2),
            lines: random.count(3, 8),
        },
        61..=68 => large_and_long(random, most_places),
        69..=72 if city > MOST_PLACES => city_of(random, city),
        _ => small,
    }
}

/// More than 64 places, mostly not many more, now and then about as many as asked
/// for. Few lines and samples cost enough there.
fn city_of(random: &mut Random, most_places: usize) -> Sizes {
    let least = MOST_PLACES + 1;
    let near = random.count(least, most_places.min(2 * least));
    let far = random.count(most_places - most_places / 8, most_places).max(least);
    Sizes {
        places: random.pick(&[least, near, near, near, near, far]),
        signals: random.count(1, 2),
        samples: random.count(1, 4),
        lines: random.count(1, 8),
    }
}

/// Many places and many samples at once, on which few lines cost enough.
fn large_and_long(random: &mut Random, most_places: usize) -> Sizes {
    Sizes {
        places: random.count(most_places.min(17), most_places),
        signals: random.count(1, 2),
        samples: random.count(17, 64),
        lines: random.count(4, 7),
    }
}

/// Half of them small, the others with one size or another large.
fn sizes_to_damage(random: &mut Random, most_places: usize) -> Sizes {
    let (city, most_places) = (most_places, most_places.min(MOST_PLACES));
    let small = small(random, most_places);
    match random.below(20) {
        10 | 11 if city > MOST_PLACES => city_of(random, city),
        0 | 1 => Sizes { lines: random.count(12, MOST_LINES), ..small },
        2 | 3 => Sizes { places: random.count(1, most_places), ..small },
        4 | 5 => Sizes { samples: random.pick(&[9, 100, MOST_SAMPLES, MOST_SAMPLES]), ..small },
        6 | 7 => Sizes { signals: MOST_SIGNALS, lines: random.count(1, 4), ..small },
        8 | 9 => Sizes {
            places: most_places,
            lines: random.pick(&[small.lines, MOST_LINES]),
            signals: random.pick(&[small.signals, MOST_SIGNALS]),
            ..small
        },
        _ => small,
    }
}
