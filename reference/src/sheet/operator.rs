//! What a line of the table says.

/// The bounds of a line, both included: of time for codes 5, 9, 10 and 12 to
/// 14, of distance for codes 6, 7, 11 and 15.
#[derive(Clone, Copy, Debug, PartialEq, Eq)]
pub struct Bounds {
    /// The lower bound.
    pub lower: u32,
    /// The upper bound, at least the lower.
    pub upper: u32,
}

/// A line's operator with its operands (numbers of earlier lines), signal,
/// constant and bounds. The cases stand in the order of the codes 0 to 15.
#[derive(Clone, Copy, Debug, PartialEq, Eq)]
#[allow(missing_docs)]
pub enum Operator {
    /// Code 0.
    True,
    /// Code 1: signal at least constant.
    AtLeast { signal: usize, constant: i32 },
    /// Code 2: signal at most constant.
    AtMost { signal: usize, constant: i32 },
    /// Code 3.
    Not { left: usize },
    /// Code 4.
    And { left: usize, right: usize },
    /// Code 5.
    Until { left: usize, right: usize, bounds: Bounds },
    /// Code 6.
    Somewhere { left: usize, bounds: Bounds },
    /// Code 7: "a region with an empty boundary no longer counts".
    Surround { left: usize, right: usize, bounds: Bounds },
    /// Code 8.
    Or { left: usize, right: usize },
    /// Code 9.
    Eventually { left: usize, bounds: Bounds },
    /// Code 10.
    Always { left: usize, bounds: Bounds },
    /// Code 11.
    Everywhere { left: usize, bounds: Bounds },
    /// Code 12.
    Since { left: usize, right: usize, bounds: Bounds },
    /// Code 13.
    Once { left: usize, bounds: Bounds },
    /// Code 14.
    Historically { left: usize, bounds: Bounds },
    /// Code 15: the surround to which "a boundary may be empty", so that a place
    /// that nothing surrounds may hold as an island.
    SurroundOrIsland { left: usize, right: usize, bounds: Bounds },
}

/// Which way a line looks from its own samples.
#[derive(Clone, Copy, Debug, PartialEq, Eq)]
pub enum Reach {
    /// At its own samples only.
    Here,
    /// So many samples ahead.
    Ahead(u32),
    /// So many samples back.
    Back(u32),
}

impl Operator {
    /// The code that the operator is written with, 0 to 15.
    pub fn code(&self) -> u32 {
        match self {
            Operator::True => 0,
            Operator::AtLeast { .. } => 1,
            Operator::AtMost { .. } => 2,
            Operator::Not { .. } => 3,
            Operator::And { .. } => 4,
            Operator::Until { .. } => 5,
            Operator::Somewhere { .. } => 6,
            Operator::Surround { .. } => 7,
            Operator::Or { .. } => 8,
            Operator::Eventually { .. } => 9,
            Operator::Always { .. } => 10,
            Operator::Everywhere { .. } => 11,
            Operator::Since { .. } => 12,
            Operator::Once { .. } => 13,
            Operator::Historically { .. } => 14,
            Operator::SurroundOrIsland { .. } => 15,
        }
    }

    /// The operands, left and right, for codes that have them.
    pub fn operands(&self) -> [Option<usize>; 2] {
        match *self {
            Operator::True | Operator::AtLeast { .. } | Operator::AtMost { .. } => [None, None],
            Operator::Not { left }
            | Operator::Somewhere { left, .. }
            | Operator::Eventually { left, .. }
            | Operator::Always { left, .. }
            | Operator::Everywhere { left, .. }
            | Operator::Once { left, .. }
            | Operator::Historically { left, .. } => [Some(left), None],
            Operator::And { left, right }
            | Operator::Until { left, right, .. }
            | Operator::Surround { left, right, .. }
            | Operator::Or { left, right }
            | Operator::Since { left, right, .. }
            | Operator::SurroundOrIsland { left, right, .. } => [Some(left), Some(right)],
        }
    }

    /// The bounds, for codes that have them.
    pub fn bounds(&self) -> Option<Bounds> {
        match *self {
            Operator::Until { bounds, .. }
            | Operator::Somewhere { bounds, .. }
            | Operator::Surround { bounds, .. }
            | Operator::Eventually { bounds, .. }
            | Operator::Always { bounds, .. }
            | Operator::Everywhere { bounds, .. }
            | Operator::Since { bounds, .. }
            | Operator::Once { bounds, .. }
            | Operator::Historically { bounds, .. }
            | Operator::SurroundOrIsland { bounds, .. } => Some(bounds),
            _ => None,
        }
    }

    /// Left, right and bounds of a surround of either code.
    pub fn surround(&self) -> Option<(usize, usize, Bounds)> {
        match *self {
            Operator::Surround { left, right, bounds }
            | Operator::SurroundOrIsland { left, right, bounds } => Some((left, right, bounds)),
            _ => None,
        }
    }

    /// How far the line looks beside its own samples: its upper bound, if that
    /// is one of time.
    pub fn reach(&self) -> Reach {
        match *self {
            Operator::Until { bounds, .. }
            | Operator::Eventually { bounds, .. }
            | Operator::Always { bounds, .. } => Reach::Ahead(bounds.upper),
            Operator::Since { bounds, .. }
            | Operator::Once { bounds, .. }
            | Operator::Historically { bounds, .. } => Reach::Back(bounds.upper),
            _ => Reach::Here,
        }
    }
}
