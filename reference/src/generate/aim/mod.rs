//! Damage aimed at one refusal.

mod extents;
mod heads;
pub mod lent;
mod lines;
mod places;

use super::random::Random;
use super::{damage, valid, Case};
use crate::layout::Layout;
use crate::sheet::check;
use crate::words::{self, kinds};

/// Damage that is aimed: nothing where the sheet has not what it strikes at.
type Blow = fn(&mut Random, Vec<u32>) -> Option<Vec<u32>>;

/// A case that is refused with the number, 1 to 17. The refusals of a road need
/// a road, so their sheets may have two places though fewer were asked for.
pub fn aimed(random: &mut Random, number: u64, most_places: usize) -> Case {
    let Some(blow) = blow(number) else {
        return aimed_at_lent(random, number, most_places);
    };
    let most_places = if (4..=7).contains(&number) { most_places.max(2) } else { most_places };
    loop {
        let words = valid::sheet_to_damage(random, most_places);
        if let Some(words) = blow(random, words) {
            let mut case = Case::lend(random, &words);
            // What is lent to a wide sheet is looked at after its front.
            let is_of_front = matches!(number, 3 | 17) && Layout::of(&words).is_wide();
            if is_of_front && random.chance(50) {
                lent::few_distances(random, &mut case);
            }
            return case;
        }
    }
}

/// A case that is refused with 1, 15 or 16. What would be refused later is often
/// wrong as well: of 1 the sheet and the answer, of 16 the distances too.
fn aimed_at_lent(random: &mut Random, number: u64, most_places: usize) -> Case {
    let mut words = valid::sheet_to_damage(random, most_places);
    if number != 15 && random.chance(50) {
        words = damaged_besides(random, words, number);
    }
    let mut case = Case::lend(random, &words);
    if number == 1 || (number == 16 && random.chance(30)) {
        lent::few_distances(random, &mut case);
    }
    if number == 15 || random.chance(30) {
        lent::short_answer(random, &mut case);
    }
    if number == 16 {
        lent::odd_bytes(random, &mut case);
    }
    case
}

/// The words damaged, with an aim behind the front or without any, unless that takes
/// the aim at the number away: before 1 come the faults of a wide head.
fn damaged_besides(random: &mut Random, words: Vec<u32>, number: u64) -> Vec<u32> {
    let mut damaged = words.clone();
    let besides = random.count(4, 14) as u64;
    let blow = blow(besides).filter(|_| random.chance(50));
    match blow.and_then(|blow| blow(random, words.clone())) {
        Some(struck) => damaged = struck,
        None => damage::damage(random, &mut damaged),
    }
    let refused_for_distances = check(&damaged, 0).is_err_and(|refusal| refusal.number() == 1);
    if number == 1 && !refused_for_distances {
        words
    } else {
        damaged
    }
}

/// A blow of a number that strikes the table of the words, so that the place is
/// behind all samples; nothing where there is no such number, or nothing to
/// strike.
pub fn struck_table(random: &mut Random, number: u64, words: &[u32]) -> Option<Vec<u32>> {
    let blow = blow(number).filter(|_| (10..=14).contains(&number))?;
    blow(random, words.to_vec())
}

/// The blow for a refusal that lies in the sheet itself.
fn blow(number: u64) -> Option<Blow> {
    Some(match number {
        2 => heads::head_kind,
        3 => heads::head_limits,
        4 => places::road_spare_bits,
        5 => places::road_places,
        6 => places::road_order,
        7 => places::road_weight,
        8 => places::sample_kind,
        9 => places::sample_bit,
        10 => lines::line_count,
        11 => lines::line_word,
        12 => lines::parameter,
        13 => extents::no_sample,
        14 => lines::end,
        17 => heads::wide_head,
        _ => return None,
    })
}

/// The indices of the line words.
fn line_words(words: &[u32]) -> Vec<usize> {
    words::indices(words, |kind| kind == kinds::LINE)
}

/// The index of some word of a kind.
fn find(random: &mut Random, words: &[u32], kind: u32) -> Option<usize> {
    let found = words::indices(words, |other| other == kind);
    (!found.is_empty()).then(|| random.pick(&found))
}

/// The word with another kind, none of those to avoid.
fn other_kind(random: &mut Random, word: u32, avoid: &[u32]) -> u32 {
    loop {
        let kind = random.field(0, 15);
        if kind != words::kind(word) && !avoid.contains(&kind) {
            return words::word(kind, words::payload(word));
        }
    }
}
