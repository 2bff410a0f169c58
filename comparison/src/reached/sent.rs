//! What a list of corrections holds: which revisions of a sample are sent in which
//! order, what clashes, and what is wrong with a word.

use reference::correct::{self, Aim, Correction, WORDS_PER_CORRECTION};
use reference::layout::Front;
use reference::words::{self, field, kind, kinds};
use std::collections::BTreeMap;

/// A list of corrections.
pub struct Sent {
    /// Its words; none if its bytes are no whole words.
    pub words: Vec<u32>,
    /// What its corrections tell, right or wrong, without one that is cut short.
    pub corrections: Vec<Correction>,
}

/// Where two corrections of one sample and revision have unlike values.
#[derive(Clone, Copy, Debug, PartialEq, Eq)]
pub struct Clash {
    /// The first of all that the sample has in this revision.
    pub first: usize,
    /// The one that clashes with it.
    pub later: usize,
}

impl Sent {
    /// What the bytes of a list hold.
    pub fn of(bytes: &[u8]) -> Self {
        let words = words::from_bytes(bytes).unwrap_or_default();
        let corrections = correct::told(&words).collect();
        Sent { words, corrections }
    }

    /// Whether a word is of a wrong kind or missing, whatever the sheet is.
    pub fn is_ill_formed(&self) -> bool {
        let expected = [kinds::CORRECTION, kinds::CORRECTED_PLACE, kinds::SAMPLE];
        let mut kinds = self.words.iter().zip(expected.iter().cycle());
        let is_cut = !self.words.len().is_multiple_of(WORDS_PER_CORRECTION);
        is_cut || kinds.any(|(&word, &expected)| kind(word) != expected)
    }

    /// All that clash with the first of their sample and revision, among so many
    /// corrections at the front.
    pub fn clashes(&self, among: usize) -> Vec<Clash> {
        let mut firsts = BTreeMap::new();
        let mut clashes = Vec::new();
        for (later, correction) in self.corrections.iter().take(among).enumerate() {
            let first = *firsts.entry((correction.aim, correction.revision)).or_insert(later);
            if self.corrections[first].value != correction.value {
                clashes.push(Clash { first, later });
            }
        }
        clashes
    }

    /// Whether some corrections clash, whatever the sheet is.
    pub fn has_clash(&self) -> bool {
        !self.clashes(self.corrections.len()).is_empty()
    }

    /// The indices of each sample's corrections, in the list's order.
    pub fn by_sample(&self) -> BTreeMap<Aim, Vec<usize>> {
        let mut by_sample: BTreeMap<Aim, Vec<usize>> = BTreeMap::new();
        for (at, correction) in self.corrections.iter().enumerate() {
            by_sample.entry(correction.aim).or_default().push(at);
        }
        by_sample
    }

    /// Whether something is so of the revisions of some sample, in the list's order.
    pub fn some_revisions(&self, is_so: impl Fn(&[u32]) -> bool) -> bool {
        self.by_sample().into_values().any(|indices| {
            let revisions = indices.iter().map(|&at| self.corrections[at].revision);
            is_so(&revisions.collect::<Vec<u32>>())
        })
    }

    /// The indices of a sample's corrections of higher revision than this one.
    pub fn above(&self, at: usize) -> impl Iterator<Item = usize> + '_ {
        let Correction { revision, aim, .. } = self.corrections[at];
        let others = self.corrections.iter().enumerate();
        others
            .filter(move |(_, other)| other.aim == aim && other.revision > revision)
            .map(|(i, _)| i)
    }
}

/// What can be wrong with a word of a list, in the order in which it is looked for.
pub const CAUSES: [&str; 12] = [
    "first word, another kind",
    "first word, revision 0",
    "first word, a signal too many",
    "first word, a time too many",
    "second word, another kind",
    "second word, a spare bit",
    "second word, a place too many",
    "third word, of kind 0",
    "third word, another kind",
    "third word, bit 27",
    "one word missing",
    "two words missing",
];

/// What is wrong with the word of a list at an index, for a sheet with this front.
pub fn cause(words: &[u32], at: usize, front: &Front) -> &'static str {
    let Some(&word) = words.get(at) else {
        return CAUSES[12 - at % WORDS_PER_CORRECTION];
    };
    let is_beyond = |number: u32, count: usize| number as usize >= count;
    let found = match at % WORDS_PER_CORRECTION {
        0 if kind(word) != kinds::CORRECTION => 0,
        0 if field(word, 27, 20) == 0 => 1,
        0 if is_beyond(field(word, 19, 12), front.middle) => 2,
        0 => 3,
        1 if kind(word) != kinds::CORRECTED_PLACE => 4,
        1 if field(word, 27, 16) != 0 => 5,
        1 => 6,
        _ if kind(word) == 0 => 7,
        _ if kind(word) != kinds::SAMPLE => 8,
        _ => 9,
    };
    CAUSES[found]
}

#[cfg(test)]
mod tests {
    use super::*;
    use reference::worked::CORRECTIONS_OF_A;

    fn sent(words: &[u32]) -> Sent {
        Sent::of(&words::to_bytes(words))
    }

    /// Two of one sample, in revisions 1 and 2, and one of another.
    #[test]
    fn what_the_worked_list_holds() {
        let list = sent(&CORRECTIONS_OF_A);
        assert_eq!(list.by_sample().into_values().collect::<Vec<_>>(), [vec![2], vec![0, 1]]);
        assert!(list.some_revisions(|revisions| revisions == [1, 2]));
        assert!(!list.some_revisions(|revisions| revisions == [2, 1]));
        assert_eq!(list.above(0).collect::<Vec<_>>(), [1]);
        assert_eq!(list.above(1).count(), 0);
        assert!(!list.has_clash() && !list.is_ill_formed());
    }

    /// The third and the fourth clash with the first, the second does not.
    #[test]
    fn clashes_are_told_in_their_order() {
        let value = |value: u32| [0xB010_0001, 0xC000_0000, 0x4000_0000 | value];
        let list = sent(&[value(5), value(5), value(6), value(7)].concat());
        let expected = [2, 3].map(|later| Clash { first: 0, later });
        assert_eq!(list.clashes(4), expected);
        assert_eq!(list.clashes(3), expected[..1]);
        assert!(list.has_clash() && list.clashes(2).is_empty());
    }

    #[test]
    fn ill_formed_whatever_the_sheet_is() {
        for cut in [1, 2, 4, 8] {
            assert!(sent(&CORRECTIONS_OF_A[..cut]).is_ill_formed());
        }
        for at in 0..9 {
            let mut words = CORRECTIONS_OF_A;
            words[at] = 0;
            assert!(sent(&words).is_ill_formed());
        }
        assert!(!sent(&[]).is_ill_formed());
        assert!(sent(&[]).corrections.is_empty() && Sent::of(&[1]).words.is_empty());
    }

    #[test]
    fn causes_of_words() {
        let front = Front::told(&[0x1020_3004]);
        let words = [0xB010_2003, 0xC000_0001, 0x4000_0000];
        let cause_of = |at: usize, word: u32| {
            let mut words = words;
            words[at] = word;
            cause(&words, at, &front)
        };
        let firsts = [0xC010_2003, 0xB000_2003, 0xB010_3003, 0xB010_2004];
        assert_eq!(firsts.map(|word| cause_of(0, word)), CAUSES[..4]);
        assert_eq!(
            [0xB000_0001, 0xC001_0001, 0xC000_0002].map(|word| cause_of(1, word)),
            CAUSES[4..7]
        );
        assert_eq!([0, 0x8000_0000, 0x4800_0000].map(|word| cause_of(2, word)), CAUSES[7..10]);
        assert_eq!([2, 1].map(|at| cause(&words[..at], at, &front)), CAUSES[10..]);
    }
}
