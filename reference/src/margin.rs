//! Margins, and verdicts with their margins.

use crate::words::{self, kinds};

/// "Margins are whole numbers, plus infinity or minus infinity." The derived
/// order is that of the extended numbers, because the cases stand in it.
#[derive(Clone, Copy, Debug, PartialEq, Eq, PartialOrd, Ord)]
pub enum Margin {
    /// Below every number: "the greatest of nothing".
    MinusInfinity,
    /// A whole number.
    Finite(i64),
    /// Above every number: "the least of nothing".
    PlusInfinity,
}

impl Margin {
    /// "Negation exchanges the infinities."
    pub fn negate(self) -> Self {
        match self {
            Margin::MinusInfinity => Margin::PlusInfinity,
            Margin::Finite(number) => Margin::Finite(-number),
            Margin::PlusInfinity => Margin::MinusInfinity,
        }
    }

    /// "The least of nothing is plus infinity."
    pub fn least(margins: impl IntoIterator<Item = Margin>) -> Self {
        margins.into_iter().fold(Margin::PlusInfinity, Ord::min)
    }

    /// "The greatest of nothing [is] minus infinity."
    pub fn greatest(margins: impl IntoIterator<Item = Margin>) -> Self {
        margins.into_iter().fold(Margin::MinusInfinity, Ord::max)
    }
}

/// What a line says at one sample and one place.
#[derive(Clone, Copy, Debug, PartialEq, Eq)]
pub struct Verdict {
    /// Whether the formula holds.
    pub yes: bool,
    /// By how much it holds or fails.
    pub margin: Margin,
}

impl Verdict {
    /// The verdict's word in the answer: "kind 9 is yes and kind 10 no,
    /// payload the margin in 28-bit two's complement; kind 11 is yes at plus
    /// infinity, kind 12 no at minus infinity, payload 0".
    ///
    /// # Panics
    ///
    /// On no at plus infinity and yes at minus infinity, for which the answer
    /// has no word. Soundness (Remark 3.5) keeps both from arising.
    pub fn to_word(self) -> u32 {
        match (self.yes, self.margin) {
            (true, Margin::Finite(number)) => finite_word(kinds::YES, number),
            (false, Margin::Finite(number)) => finite_word(kinds::NO, number),
            (true, Margin::PlusInfinity) => words::word(kinds::YES_PLUS_INFINITY, 0),
            (false, Margin::MinusInfinity) => words::word(kinds::NO_MINUS_INFINITY, 0),
            (true, Margin::MinusInfinity) | (false, Margin::PlusInfinity) => {
                panic!("verdict and margin contradict each other")
            }
        }
    }

    /// The verdict that a word of an answer says, if it is one as laid out:
    /// "kind 9 not negative, kind 10 not positive, payload never -2^27", and
    /// payload 0 for kinds 11 and 12.
    pub fn from_word(word: u32) -> Option<Verdict> {
        let number = i64::from(words::signed28(word));
        let finite = Margin::Finite(number);
        let (yes, margin, laid_out) = match words::kind(word) {
            kinds::YES => (true, finite, number >= 0),
            kinds::NO => (false, finite, number <= 0 && number != -(1 << 27)),
            kinds::YES_PLUS_INFINITY => (true, Margin::PlusInfinity, number == 0),
            kinds::NO_MINUS_INFINITY => (false, Margin::MinusInfinity, number == 0),
            _ => return None,
        };
        laid_out.then_some(Verdict { yes, margin })
    }
}

fn finite_word(kind: u32, number: i64) -> u32 {
    words::word(kind, words::margin_payload(number as i32))
}

#[cfg(test)]
mod tests {
    use super::Margin::{Finite, MinusInfinity, PlusInfinity};
    use super::*;

    #[test]
    fn infinities_enclose_the_numbers() {
        assert!(MinusInfinity < Finite(i64::MIN));
        assert!(Finite(i64::MAX) < PlusInfinity);
        assert!(Finite(-1) < Finite(0));
    }

    #[test]
    fn negation_exchanges_the_infinities() {
        assert_eq!(PlusInfinity.negate(), MinusInfinity);
        assert_eq!(MinusInfinity.negate(), PlusInfinity);
        assert_eq!(Finite(7).negate(), Finite(-7));
        assert_eq!(Finite(0).negate(), Finite(0));
    }

    #[test]
    fn least_and_greatest_of_nothing() {
        assert_eq!(Margin::least([]), PlusInfinity);
        assert_eq!(Margin::greatest([]), MinusInfinity);
        assert_eq!(Margin::least([Finite(2), Finite(-3)]), Finite(-3));
        assert_eq!(Margin::greatest([Finite(2), MinusInfinity]), Finite(2));
    }

    #[test]
    fn words_and_verdicts_correspond() {
        for word in [0x9000_0000, 0x97FF_FFFF, 0xA000_0000, 0xA800_0001, 0xB000_0000, 0xC000_0000] {
            assert_eq!(Verdict::from_word(word).map(Verdict::to_word), Some(word));
        }
    }

    #[test]
    fn words_not_laid_out_are_no_verdicts() {
        for word in [
            0x9800_0000,
            0x9FFF_FFFF,
            0xA000_0001,
            0xA800_0000,
            0xB000_0001,
            0xB800_0000,
            0xC000_0001,
            0xCFFF_FFFF,
            0x8000_0000,
            0xD000_0000,
            0x0000_0000,
        ] {
            assert_eq!(Verdict::from_word(word), None);
        }
    }
}
