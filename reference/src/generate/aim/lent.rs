//! Aims at what is lent: refusals 1, 15 and 16.

use crate::answer;
use crate::generate::random::Random;
use crate::generate::Case;
use crate::judge::{BYTES_PER_DISTANCE, RESULT_BYTES};
use crate::layout::{Front, DISTANCE_ENTRIES, ENOUGH_DISTANCES};
use crate::sheet;
use crate::words::{self, BYTES_PER_WORD};

/// 1: under 4,096 entries of the distance table, for a wide sheet fewer than
/// places squared, often by one, and beyond 64 places also those of a narrow one.
pub fn few_distances(random: &mut Random, case: &mut Case) {
    let most = Front::told_by_bytes(&case.sheet).distances_needed().saturating_sub(1);
    let any = random.count(0, most);
    let entries = random.pick(&[0, 1, most, most, DISTANCE_ENTRIES, any]).min(most);
    case.distances = entries * BYTES_PER_DISTANCE;
}

/// 15: fewer words of the answer than needed, often by one.
pub fn short_answer(random: &mut Random, case: &mut Case) {
    let words = words::from_bytes(&case.sheet).unwrap_or_default();
    let needed = match sheet::check(&words, ENOUGH_DISTANCES) {
        Ok(sheet) => answer::needed(&sheet),
        Err(_) => 1,
    };
    let any = random.below(needed);
    case.answer = random.pick(&[needed - 1, needed - 1, any, 0]) * BYTES_PER_WORD;
}

/// 16: a length in bytes that cannot be, of one buffer or of several.
pub fn odd_bytes(random: &mut Random, case: &mut Case) {
    let mask = random.field(1, 15);
    if mask & 1 != 0 {
        odd_input(random, &mut case.sheet);
    }
    if mask & 2 != 0 {
        case.answer += odd(random);
    }
    if mask & 4 != 0 {
        case.distances += random.count(1, BYTES_PER_DISTANCE - 1);
    }
    if mask & 8 != 0 {
        case.result = random.pick(&[0, 1, 8, 32, RESULT_BYTES - 1, RESULT_BYTES + 1, 80]);
    }
}

/// Takes some bytes of a last word away, or adds some of one more.
pub fn odd_input(random: &mut Random, bytes: &mut Vec<u8>) {
    let odd = odd(random);
    let length = bytes.len();
    if random.chance(50) && length > odd {
        bytes.truncate(length - odd);
    } else {
        bytes.resize(length + odd, 0);
    }
}

/// Fewer bytes than a word has, at least one.
pub fn odd(random: &mut Random) -> usize {
    random.count(1, BYTES_PER_WORD - 1)
}
