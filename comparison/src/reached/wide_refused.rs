//! What wide sheets are refused for, where, and beside what else.

use super::layouts::MOST_OF_A_BYTE;
use super::setting::Struck;
use reference::judge::BYTES_PER_DISTANCE;
use reference::layout::{Front, Pair, DISTANCE_ENTRIES, ENOUGH_DISTANCES, MOST_PLACES};
use reference::layout::{Layout, MOST_WIDE_PLACES};
use reference::refusal::Refusal;
use reference::sheet::{check, MOST_SAMPLES, MOST_SIGNALS};
use reference::words::{self, kinds};

/// What a refused wide sheet may show: its text, the numbers that a run must have
/// seen it with, and whether it is so.
type Shown = (&'static str, &'static [u64], fn(&Struck) -> bool);

/// Every number but that of a narrow head.
const ALL: [u64; 16] = [1, 3, 4, 5, 6, 7, 8, 9, 10, 11, 12, 13, 14, 15, 16, 17];

/// Numbers that are told behind the front, and that of too few distances.
const BEHIND_FRONT: [u64; 13] = [1, 4, 5, 6, 7, 8, 9, 10, 11, 12, 13, 14, 15];

const SHOWN: [Shown; 25] = [
    ("any", &ALL, |_| true),
    ("more than 64 places", &BEHIND_FRONT, |struck| struck.front().places > MOST_PLACES),
    ("more than 255 places", &BEHIND_FRONT, |struck| struck.front().places > MOST_OF_A_BYTE),
    ("no entry", &[1], |struck| entries(struck) == 0),
    ("an entry short", &[1], |struck| is_an_entry_short(struck)),
    ("an entry short of 1,024 places", &[1], |struck| {
        is_an_entry_short(struck) && struck.front().places == MOST_WIDE_PLACES
    }),
    ("4,096 entries or more", &[1], |struck| entries(struck) >= DISTANCE_ENTRIES),
    ("a road at fault besides", &[1], |struck| is_refused_besides(struck, &[4, 5, 6, 7])),
    ("a fault behind the roads besides", &[1], |struck| {
        is_refused_besides(struck, &BEHIND_FRONT[5..12])
    }),
    ("a short answer besides", &[1], |struck| struck.is_short_besides()),
    ("too few distances besides", &[3, 17], has_few_distances),
    ("signals 0", &[3], |struck| struck.front().middle == 0),
    ("samples 0", &[3], |struck| struck.front().samples == 0),
    ("17 signals or more", &[3], |struck| struck.front().middle > MOST_SIGNALS),
    ("1,025 samples or more", &[3], |struck| struck.front().samples > MOST_SAMPLES),
    ("sizes outside their limits besides", &[17], |struck| !is_in_limits(&struck.front())),
    ("equal places", &[5], |struck| pair(struck).first == pair(struck).second),
    ("places exchanged", &[5], |struck| pair(struck).first > pair(struck).second),
    ("second place beyond n", &[5], |struck| pair(struck).second >= struck.front().places),
    ("a pair that 8 bits would let through", &[5], is_right_in_8_bits),
    ("count 0", &[17], |struck| struck.place == 0 && count(struck) == 0),
    ("count 1,025 or more", &[17], |struck| struck.place == 0 && count(struck) > MOST_WIDE_PLACES),
    ("no word behind", &[17], |struck| struck.place == 1 && struck.words.len() == 1),
    ("another kind behind", &[17], |struck| {
        struck.place == 1 && struck.words.len() > 1 && words::kind(struck.word()) != kinds::HEAD
    }),
    ("places in the head", &[17], |struck| {
        struck.place == 1 && words::kind(struck.word()) == kinds::HEAD
    }),
];

/// The bits that must be zero in a road's first word and in the kind 10 word.
const SPARE: [(u64, std::ops::RangeInclusive<u32>); 2] = [(4, 24..=25), (17, 16..=27)];

/// All labels, each a number and a text.
pub fn labels() -> Vec<(u64, String)> {
    let shown = SHOWN
        .iter()
        .flat_map(|(text, numbers, _)| numbers.iter().map(|&number| (number, of_wide(text))));
    let spare =
        SPARE.iter().flat_map(|(number, bits)| bits.clone().map(|bit| (*number, of_bit(bit))));
    shown.chain(spare).collect()
}

fn of_wide(text: &str) -> String {
    format!("wide, {text}")
}

fn of_bit(bit: u32) -> String {
    format!("wide, bit {bit}")
}

/// The texts of the labels that a refused case has; none of a narrow sheet.
pub fn shown(struck: &Struck, number: u64) -> Vec<String> {
    if !Layout::of(struck.words).is_wide() {
        return Vec::new();
    }
    let asked = SHOWN.iter().filter(|(_, numbers, _)| numbers.contains(&number));
    let texts = asked.filter(|(_, _, is_so)| is_so(struck)).map(|(text, ..)| of_wide(text));
    let spare = SPARE.iter().filter(|(of, _)| *of == number && (number, struck.place) != (17, 1));
    let is_set = |bit: &u32| struck.word() >> bit & 1 == 1;
    texts.chain(spare.flat_map(|(_, bits)| bits.clone().filter(is_set).map(of_bit))).collect()
}

fn entries(struck: &Struck) -> usize {
    struck.case.distances / BYTES_PER_DISTANCE
}

fn is_an_entry_short(struck: &Struck) -> bool {
    entries(struck) + 1 == struck.front().distances_needed()
}

/// Whether, if the places are within their limits, fewer are lent than they need.
fn has_few_distances(struck: &Struck) -> bool {
    entries(struck) < struck.front().distances_needed()
}

/// Whether with enough lent the sheet would be refused with one of these numbers.
fn is_refused_besides(struck: &Struck, numbers: &[u64]) -> bool {
    let is_one = |refusal: Refusal| numbers.contains(&refusal.number());
    check(struck.words, ENOUGH_DISTANCES).is_err_and(is_one)
}

fn is_in_limits(front: &Front) -> bool {
    (1..=MOST_SIGNALS).contains(&front.middle) && (1..=MOST_SAMPLES).contains(&front.samples)
}

fn pair(struck: &Struck) -> Pair {
    Layout::Wide.pair(struck.word())
}

/// Whether an engine that has 8 bits of each place would find nothing wrong.
fn is_right_in_8_bits(struck: &Struck) -> bool {
    let Pair { first, second, .. } = pair(struck);
    let (first, second) = (first & MOST_OF_A_BYTE, second & MOST_OF_A_BYTE);
    first < second && second < struck.front().places
}

fn count(struck: &Struck) -> usize {
    struck.front().places
}

#[cfg(test)]
mod tests {
    use super::*;
    use reference::fast::Fast;
    use reference::generate::Case;
    use reference::judge::Outcome;
    use reference::worked::WIDE_A;

    /// The number, and what is shown by example A laid out wide with a word replaced
    /// and so many distances lent, beside that it is wide.
    fn shown_with(index: usize, word: u32, entries: usize) -> (u64, Vec<String>) {
        let mut words = WIDE_A;
        words[index] = word;
        let case = Case { distances: entries * BYTES_PER_DISTANCE, ..Case::of(&words, 21) };
        let (mut distances, mut answer) = (vec![0; case.distances], vec![0; case.answer]);
        let mut result = vec![0; case.result];
        reference::judge::<Fast>(&case.sheet, &mut distances, &mut answer, &mut result);
        let Outcome { number, place, .. } = Outcome::from_bytes(&result).expect("a result");
        let struck = Struck { words: &words, case: &case, place: place as usize };
        let shown = shown(&struck, number).split_off(1);
        (number, shown)
    }

    fn texts(texts: &[&str]) -> Vec<String> {
        texts.iter().map(|text| of_wide(text)).collect()
    }

    #[test]
    fn wide_heads() {
        assert_eq!(shown_with(0, 0xA0000000, 4), (17, texts(&["count 0"])));
        assert_eq!(shown_with(0, 0xA0000401, 4), (17, texts(&["count 1,025 or more"])));
        assert_eq!(shown_with(0, 0xA0810002, 4), (17, texts(&["bit 16", "bit 23"])));
        assert_eq!(shown_with(1, 0x20001002, 4), (17, texts(&["another kind behind"])));
        let both = ["too few distances besides", "sizes outside their limits besides"];
        let expected = texts(&[both[0], both[1], "places in the head"]);
        assert_eq!(shown_with(1, 0x10200002, 3), (17, expected));
    }

    #[test]
    fn limits_and_distances() {
        let expected = texts(&["too few distances besides", "signals 0"]);
        assert_eq!(shown_with(1, 0x10000002, 3), (3, expected));
        let expected = texts(&["an entry short", "a road at fault besides"]);
        assert_eq!(shown_with(2, 0x20001000, 3), (1, expected));
        let expected = texts(&["no entry", "a fault behind the roads besides"]);
        assert_eq!(shown_with(19, 0xF0000014, 0), (1, expected));
    }

    #[test]
    fn wide_roads() {
        assert_eq!(shown_with(2, 0x22000001, 4), (4, texts(&["bit 25"])));
        assert_eq!(shown_with(2, 0x2C000001, 4), (4, texts(&[])));
        assert_eq!(shown_with(2, 0x20001000, 4), (5, texts(&["places exchanged"])));
        let by_8_bits = "a pair that 8 bits would let through";
        let expected = texts(&["second place beyond n", by_8_bits]);
        assert_eq!(shown_with(2, 0x20000101, 4), (5, expected));
    }
}
