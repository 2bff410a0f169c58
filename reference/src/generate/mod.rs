//! Seeded sheets, valid and damaged, with what a host lends beside them.
//!
//! A seed determines its case wholly, so a case on which two engines differ
//! can be told by one number.

pub mod aim;
pub mod answers;
pub mod corrections;
pub mod damage;
pub mod islands;
pub mod largest;
pub mod limits;
pub mod network;
pub mod random;
pub mod rounds;
mod runs;
pub mod table;
mod ties;
pub mod tools;
pub mod valid;
pub mod windows;

use crate::answer;
use crate::judge::{BYTES_PER_DISTANCE, RESULT_BYTES};
use crate::layout::{Front, Layout, DISTANCE_ENTRIES, ENOUGH_DISTANCES, MOST_PLACES};
use crate::sheet;
use crate::words::{self, BYTES_PER_WORD};
use random::Random;

/// A sheet and the lengths in bytes of the buffers lent beside it.
#[derive(Clone, Debug, PartialEq, Eq)]
pub struct Case {
    /// The sheet's bytes.
    pub sheet: Vec<u8>,
    /// The length of the distance table.
    pub distances: usize,
    /// The length of the answer.
    pub answer: usize,
    /// The length of the result.
    pub result: usize,
}

impl Case {
    /// A sheet with so many answer words and everything else as it should be lent.
    pub fn of(words: &[u32], answer_words: usize) -> Self {
        Case {
            sheet: words::to_bytes(words),
            distances: Front::told(words).distances_needed() * BYTES_PER_DISTANCE,
            answer: answer_words * BYTES_PER_WORD,
            result: RESULT_BYTES,
        }
    }

    /// A sheet with enough lent beside it: a distance table and an answer of at
    /// least what is needed, and the 40 bytes of the result. To a wide sheet of few
    /// places the table of a narrow one is lent now and then.
    pub fn lend(random: &mut Random, words: &[u32]) -> Self {
        let needed = match sheet::check(words, ENOUGH_DISTANCES) {
            Ok(sheet) => answer::needed(&sheet),
            Err(_) => random.below(64),
        };
        let spare = random.pick(&[0, 0, 1, 2, 17]);
        let mut case = Case::of(words, needed + spare);
        let longer = random.pick(&[0, 0, 0, 1, 100]) * BYTES_PER_DISTANCE;
        let of_narrow = DISTANCE_ENTRIES * BYTES_PER_DISTANCE;
        case.distances = match random.below(4) {
            0 => case.distances.max(of_narrow),
            _ => case.distances + longer,
        };
        case
    }
}

/// The layout of a sheet of so many places: wide where it must be, and now and
/// then where it need not.
pub fn layout(random: &mut Random, places: usize) -> Layout {
    if places > MOST_PLACES || random.chance(35) {
        Layout::Wide
    } else {
        Layout::Narrow
    }
}

/// Refusals to aim at; those of lines more often, which have many ways to arise, and
/// that of a road's bits.
const AIMS: [u64; 25] =
    [1, 1, 2, 3, 4, 4, 5, 6, 7, 8, 9, 10, 11, 11, 12, 12, 12, 12, 13, 13, 13, 14, 15, 16, 17];

/// The case of a seed: of a hundred about 50 valid ones (one of them of many
/// rounds, two with islands, two with windows full of ties), 36 aimed at a certain
/// refusal and 14 damaged without an aim, none of more than so many places (two,
/// where a road is to be refused). A third are wide, and all of more than 64
/// places.
pub fn case(seed: u64, most_places: usize) -> Case {
    let mut random = Random::new(seed);
    match random.below(100) {
        0..=44 => valid_case(&mut random, most_places),
        45 | 46 => {
            let words = windows::sheet(&mut random, most_places);
            Case::lend(&mut random, &words)
        }
        47 | 48 => {
            let words = islands::sheet(&mut random, most_places);
            Case::lend(&mut random, &words)
        }
        49 => {
            let words = rounds::sheet(&mut random, most_places);
            Case::lend(&mut random, &words)
        }
        50..=85 => {
            let number = random.pick(&AIMS);
            aim::aimed(&mut random, number, most_places)
        }
        _ => damaged_case(&mut random, most_places),
    }
}

/// A valid sheet with enough lent beside it.
pub fn valid_case(random: &mut Random, most_places: usize) -> Case {
    let words = valid::sheet(random, most_places);
    Case::lend(random, &words)
}

/// A sheet damaged anywhere; now and then too little is lent as well, in one way
/// or in several, so that the order of the refusals is seen.
pub fn damaged_case(random: &mut Random, most_places: usize) -> Case {
    let mut words = valid::sheet_to_damage(random, most_places);
    damage::damage(random, &mut words);
    let mut case = Case::lend(random, &words);
    // Bytes last, since a sheet of odd bytes has no words to count.
    for too_little in [aim::lent::few_distances, aim::lent::short_answer, aim::lent::odd_bytes] {
        if random.chance(5) {
            too_little(random, &mut case);
        }
    }
    case
}
