//! The scales that formulas are read over: margins and verdicts.

use crate::margin::Margin;

/// A totally ordered scale with a top, a bottom and a negation that turns the
/// order around.
pub trait Scale: Copy + Ord {
    /// The least of nothing.
    const TOP: Self;
    /// The greatest of nothing.
    const BOTTOM: Self;

    /// The negation of a value.
    fn negate(self) -> Self;

    /// The value of a formula of code 1 or 2 with this difference.
    fn of_difference(difference: i32) -> Self;
}

/// Margins. Differences of 27-bit numbers stay within 28 bits, far from the
/// ends of `i32`, which stand for the infinities.
impl Scale for i32 {
    const TOP: i32 = i32::MAX;
    const BOTTOM: i32 = -i32::MAX;

    fn negate(self) -> i32 {
        -self
    }

    fn of_difference(difference: i32) -> i32 {
        difference
    }
}

/// The margin that a number stands for.
pub fn margin(number: i32) -> Margin {
    match number {
        i32::BOTTOM => Margin::MinusInfinity,
        i32::TOP => Margin::PlusInfinity,
        number => Margin::Finite(number.into()),
    }
}

/// Verdicts: "codes 1 and 2 are yes exactly when the margin is at least 0".
impl Scale for bool {
    const TOP: bool = true;
    const BOTTOM: bool = false;

    fn negate(self) -> bool {
        !self
    }

    fn of_difference(difference: i32) -> bool {
        difference >= 0
    }
}
