//! What lookups in wide answers show: what they give and where, and how the words
//! at the answer's front were damaged before.

use super::chosen;
use super::layouts::MOST_OF_A_BYTE;
use reference::answer::Answer;
use reference::generate::answers::Query;
use reference::layout::{Front, Layout, MOST_PLACES, MOST_WIDE_PLACES};
use reference::words::{self, kinds};

/// What a lookup in a whole wide answer shows.
const IN_WHOLE: [&str; 6] = [
    "yes or no",
    "none outside",
    "none at the place after the last",
    "yes or no at a place above 63",
    "yes or no at a place above 255",
    "yes or no at place 1,023",
];

/// What was done to the front of a whole wide answer, so that there is none in it.
const STRUCK: [&str; 8] = [
    "another kind in the first word",
    "count 0",
    "count above 1,024",
    "a spare bit of the first word set",
    "another count within the limits",
    "the first word gone",
    "another kind of head",
    "places in the head",
];

/// Answers that are laid out as they must be, but for their places.
const BEYOND: [&str; 4] = [
    "none in a narrow answer laid out for 0 places",
    "none in a narrow answer laid out for 65 places",
    "none in a wide answer laid out for 0 places",
    "none in a wide answer laid out for 1,025 places",
];

/// The texts of all labels.
pub fn texts() -> impl Iterator<Item = String> {
    let of_front = IN_WHOLE.into_iter().map(of_whole).chain(STRUCK.into_iter().map(of_struck));
    of_front.chain(BEYOND.into_iter().map(String::from))
}

fn of_whole(text: &str) -> String {
    format!("in a wide answer, {text}")
}

fn of_struck(text: &str) -> String {
    format!("none in a wide answer with {text}")
}

/// The texts of a lookup in a whole answer that gave this; none of a narrow one.
pub fn shown(answer: &Answer, (.., place): Query, found: u64) -> Vec<String> {
    if !answer.layout.is_wide() {
        return Vec::new();
    }
    let place = usize::try_from(place).unwrap_or(usize::MAX);
    let is_there = found > 0;
    let shown = [
        is_there,
        !is_there,
        !is_there && place == answer.places,
        is_there && place >= MOST_PLACES,
        is_there && place > MOST_OF_A_BYTE,
        is_there && place + 1 == MOST_WIDE_PLACES,
    ];
    chosen(&IN_WHOLE, shown).map(of_whole).collect()
}

/// Whether words are laid out for no place or one too many, up to their end.
pub fn beyond_limits(words: &[u32]) -> Option<String> {
    let front = Front::told(words);
    let is_beyond = front.places == 0 || front.places == front.layout.most_places() + 1;
    let end = words::word(kinds::END, words.len().saturating_sub(1) as u32);
    let is_laid_out = front.is_laid_out(words, kinds::ANSWER_HEAD) && words.last() == Some(&end);
    let index = 2 * front.layout.head_index() + usize::from(front.places > 0);
    (is_beyond && is_laid_out).then(|| BEYOND[index].into())
}

/// How the front of a whole wide answer was struck, if nothing else was.
pub fn struck(before: &[u32], words: &[u32]) -> Option<String> {
    let is_wide = Layout::of(before).is_wide();
    if !is_wide || words.is_empty() || words == before || Answer::read(before).is_none() {
        return None;
    }
    if *words == before[1..] {
        return Some(of_struck(STRUCK[5]));
    }
    let same_from = |index: usize| words.get(index..) == before.get(index..);
    let index = match words[0] == before[0] {
        false if same_from(1) => struck_first(words),
        true if same_from(2) => struck_head(*words.get(1)?)?,
        _ => return None,
    };
    Some(of_struck(STRUCK[index]))
}

/// The index in [`STRUCK`] of a first word that was struck.
fn struck_first(words: &[u32]) -> usize {
    let front = Front::told(words);
    match front.layout {
        Layout::Narrow => 0,
        Layout::Wide if words::field(words[0], 27, 16) != 0 => 3,
        Layout::Wide if front.places == 0 => 1,
        Layout::Wide if front.places > MOST_WIDE_PLACES => 2,
        Layout::Wide => 4,
    }
}

/// The index in [`STRUCK`] of a head that was struck, if it is not its sizes.
fn struck_head(head: u32) -> Option<usize> {
    match words::kind(head) {
        kinds::ANSWER_HEAD => (words::field(head, 27, 20) != 0).then_some(7),
        _ => Some(6),
    }
}

#[cfg(test)]
mod tests {
    use super::*;
    use reference::generate::answers;
    use reference::generate::random::Random;

    /// Two places, one line of one sample: a yes and a no.
    const WHOLE: [u32; 6] =
        [0xA0000002, 0xD0001001, 0xE0000001, 0x90000000, 0xA0000000, 0xF0000005];

    fn struck_with(index: usize, word: u32) -> Option<String> {
        let mut words = WHOLE;
        words[index] = word;
        struck(&WHOLE, &words)
    }

    #[test]
    fn what_was_done_to_the_front() {
        let first = [0x10000002, 0xA0000000, 0xA0000401, 0xA0010002, 0xA0000003];
        let found = first.map(|word| struck_with(0, word));
        assert!(found.into_iter().flatten().eq(STRUCK[..5].iter().map(|text| of_struck(text))));
        assert_eq!(struck(&WHOLE, &WHOLE[1..]), Some(of_struck(STRUCK[5])));
        assert_eq!(struck_with(1, 0xE0001001), Some(of_struck(STRUCK[6])));
        assert_eq!(struck_with(1, 0xD0201001), Some(of_struck(STRUCK[7])));
    }

    /// Nothing, other sizes, and a word behind the front.
    #[test]
    fn what_is_no_damage_to_the_front_alone() {
        assert_eq!(struck(&WHOLE, &WHOLE), None);
        assert_eq!(struck_with(1, 0xD0001002), None);
        assert_eq!(struck_with(3, 0x90000001), None);
        assert_eq!(struck(&WHOLE[1..], &WHOLE), None);
    }

    #[test]
    fn lookups_at_places() {
        let answer = Answer::read(&WHOLE).expect("a whole answer");
        assert_eq!(shown(&answer, (0, 0, 1), 2), [of_whole(IN_WHOLE[0])]);
        assert_eq!(shown(&answer, (0, 0, 2), 0), [1, 2].map(|at| of_whole(IN_WHOLE[at])));
        assert_eq!(shown(&answer, (0, 1, 0), 0), [of_whole(IN_WHOLE[1])]);
    }

    #[test]
    fn answers_for_no_place_or_one_too_many() {
        let mut random = Random::new(1);
        assert!((0..20).all(|_| beyond_limits(&answers::beyond_limits(&mut random)).is_some()));
        assert_eq!(beyond_limits(&WHOLE), None);
        assert_eq!(beyond_limits(&[0xA0000000, 0xD0001001, 0xF0000001]), None);
        assert_eq!(beyond_limits(&[0xA0000000, 0xD0001001, 0xF0000002]), Some(BEYOND[2].into()));
    }
}
