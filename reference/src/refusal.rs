//! Refusals: why a sheet is turned back, and where.

/// A refusal's cause, with the number the scope gives it.
#[derive(Clone, Copy, Debug, PartialEq, Eq)]
#[repr(u64)]
pub enum Fault {
    /// The lent distance table has under 4,096 entries, or for a wide sheet fewer
    /// than places squared.
    DistanceTable = 1,
    /// The head is absent or not kind 1.
    HeadKind = 2,
    /// n, v or T is outside its limits, of a wide sheet v or T.
    HeadLimits = 3,
    /// Spare bits of a road's first word are set, or both bits of its direction.
    RoadSpareBits = 4,
    /// First place not below second, or second not below n.
    RoadPlaces = 5,
    /// The pair is not above the last.
    RoadOrder = 6,
    /// A road's second word is absent, not kind 3, or 0.
    RoadWeight = 7,
    /// A sample is absent or not kind 4.
    SampleKind = 8,
    /// A sample has bit 27 set.
    SampleBit = 9,
    /// There is no first line, or a 65th kind 5 word.
    LineCount = 10,
    /// Code above 15; signal not below v; operand not an earlier line; unused
    /// field not zero.
    LineWord = 11,
    /// A parameter is absent, of a wrong kind, a constant with bit 27 set, or
    /// an upper bound below the lower.
    Parameter = 12,
    /// A line has no sample.
    LineLength = 13,
    /// The end is absent, not kind 15, of a wrong count, or a word follows.
    End = 14,
    /// The lent answer, or a tool's lent output, has fewer words than needed.
    AnswerTable = 15,
    /// The lent bytes do not have the lengths they must have.
    Bytes = 16,
    /// A wide head has a count outside its limits, spare bits set, or no kind 1
    /// word with places 0 after it.
    WideHead = 17,
    /// "A wide sheet of more than 64 places asked into narrow."
    NarrowPlaces = 18,
    /// "A correction ill-formed or aimed outside the sheet."
    Correction = 19,
    /// "Two corrections of one sample with equal revision and unlike values."
    Clash = 20,
}

/// "The place is the index of the faulty word, the sheet's length if it is
/// missing." A number that is told of no word "has place 0".
#[derive(Clone, Copy, Debug, PartialEq, Eq)]
pub struct Refusal {
    /// What is wrong.
    pub fault: Fault,
    /// Where it is wrong.
    pub place: usize,
}

impl Refusal {
    /// A refusal of a fault at a place.
    pub fn new(fault: Fault, place: usize) -> Self {
        Refusal { fault, place }
    }

    /// The number the scope gives the fault.
    pub fn number(&self) -> u64 {
        self.fault as u64
    }
}
