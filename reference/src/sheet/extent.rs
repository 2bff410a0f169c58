//! The samples that a line has verdicts for.

use std::ops::Range;

/// From a first sample up to an end, the sample after the last, both by the
/// recording's own numbers. "Its length counts from first to end."
#[derive(Clone, Copy, Debug, PartialEq, Eq)]
pub struct Extent {
    /// The first sample.
    pub first: usize,
    /// The sample after the last.
    pub end: usize,
}

impl Extent {
    /// A whole recording of so many samples.
    pub fn whole(samples: usize) -> Self {
        Extent { first: 0, end: samples }
    }

    /// "The later of its operands' first samples", and where "the earlier
    /// operand ends".
    pub fn common(self, other: Self) -> Self {
        Extent { first: self.first.max(other.first), end: self.end.min(other.end) }
    }

    /// So many samples fewer at the end. An end below 0 is taken for 0, before
    /// which there is no sample either.
    pub fn ends_sooner(self, by: u32) -> Self {
        Extent { end: self.end.saturating_sub(by as usize), ..self }
    }

    /// So many samples fewer at the start. A first sample is at most 1,023 and
    /// a bound has 28 bits, so the sum fits 32.
    pub fn begins_later(self, by: u32) -> Self {
        Extent { first: self.first + by as usize, ..self }
    }

    /// How many samples there are, 0 where the first is not before the end.
    pub fn length(self) -> usize {
        self.end.saturating_sub(self.first)
    }

    /// Whether there is no sample.
    pub fn is_empty(self) -> bool {
        self.length() == 0
    }

    /// The samples.
    pub fn samples(self) -> Range<usize> {
        self.first..self.end
    }
}

#[cfg(test)]
mod tests {
    use super::*;
    use crate::sheet::GREATEST_WEIGHT as GREATEST;

    #[test]
    fn common_samples_lie_in_both() {
        let (late, early) = (Extent { first: 3, end: 9 }, Extent { first: 0, end: 5 });
        assert_eq!(late.common(early), Extent { first: 3, end: 5 });
        assert_eq!(early.common(late).samples(), 3..5);
        let later = Extent { first: 5, end: 9 };
        assert!(early.common(later).is_empty());
        assert!(!early.common(Extent { first: 4, end: 9 }).is_empty());
    }

    #[test]
    fn bounds_take_samples_away() {
        let whole = Extent::whole(1024);
        assert_eq!(whole.begins_later(1023).samples(), 1023..1024);
        assert_eq!(whole.ends_sooner(1023).samples(), 0..1);
        assert!(whole.begins_later(1024).is_empty() && whole.ends_sooner(1024).is_empty());
    }

    #[test]
    fn the_greatest_bound_leaves_nothing() {
        let last = Extent { first: 1023, end: 1024 };
        assert_eq!(last.begins_later(GREATEST).length(), 0);
        assert_eq!(last.ends_sooner(GREATEST).length(), 0);
    }
}
