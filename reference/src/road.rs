//! Roads, and which ways they run.

/// "Bit 27 of a road's first word lets it run only from first to second."
const FIRST_TO_SECOND: u32 = 1 << 27;

/// "Bit 26 only from second to first."
const SECOND_TO_FIRST: u32 = 1 << 26;

/// The two bits together, with which no road may begin: "both set is refusal 4".
pub const BOTH_MARKS: u32 = FIRST_TO_SECOND | SECOND_TO_FIRST;

/// Which ways a road runs.
#[derive(Clone, Copy, Debug, Default, PartialEq, Eq)]
pub enum Direction {
    /// "Neither means both ways."
    #[default]
    BothWays,
    /// From the lower place to the higher alone.
    FirstToSecond,
    /// From the higher place to the lower alone.
    SecondToFirst,
}

impl Direction {
    /// All of them.
    pub const ALL: [Direction; 3] =
        [Direction::BothWays, Direction::FirstToSecond, Direction::SecondToFirst];

    /// What the two bits of a road's first word tell; nothing if both are set.
    pub fn told(word: u32) -> Option<Self> {
        let mut all = Direction::ALL.into_iter();
        all.find(|direction| direction.mark() == word & BOTH_MARKS)
    }

    /// The bits of a road's first word that tell it.
    pub fn mark(self) -> u32 {
        match self {
            Direction::BothWays => 0,
            Direction::FirstToSecond => FIRST_TO_SECOND,
            Direction::SecondToFirst => SECOND_TO_FIRST,
        }
    }

    /// The direction of the same road turned round.
    pub fn turned(self) -> Self {
        match self {
            Direction::BothWays => Direction::BothWays,
            Direction::FirstToSecond => Direction::SecondToFirst,
            Direction::SecondToFirst => Direction::FirstToSecond,
        }
    }

    /// Whether it runs one way only.
    pub fn is_one_way(self) -> bool {
        self != Direction::BothWays
    }
}

/// A road between two places.
#[derive(Clone, Copy, Debug, PartialEq, Eq)]
pub struct Road {
    /// The lower place.
    pub first: usize,
    /// The higher place.
    pub second: usize,
    /// The weight, at least 1.
    pub weight: u32,
    /// Which ways it runs.
    pub direction: Direction,
}

impl Road {
    /// A road that runs both ways.
    pub fn both_ways(first: usize, second: usize, weight: u32) -> Self {
        Road { first, second, weight, direction: Direction::BothWays }
    }

    /// A road that runs from one place to another alone, whichever is the lower.
    pub fn one_way(from: usize, to: usize, weight: u32) -> Self {
        let direction = if from < to { Direction::FirstToSecond } else { Direction::SecondToFirst };
        Road { first: from.min(to), second: from.max(to), weight, direction }
    }

    /// From where to where it leads: two ways, or one.
    pub fn ways(&self) -> impl Iterator<Item = (usize, usize)> {
        let &Road { first, second, direction, .. } = self;
        let there = (direction != Direction::SecondToFirst).then_some((first, second));
        let back = (direction != Direction::FirstToSecond).then_some((second, first));
        there.into_iter().chain(back)
    }
}

#[cfg(test)]
mod tests {
    use super::*;

    fn ways(road: Road) -> Vec<(usize, usize)> {
        road.ways().collect()
    }

    #[test]
    fn bits_27_and_26_tell_the_direction() {
        let told = |word: u32| Direction::told(word).map(|direction| direction.mark());
        assert_eq!(Direction::told(0x2000_0001), Some(Direction::BothWays));
        assert_eq!(Direction::told(0x2800_0001), Some(Direction::FirstToSecond));
        assert_eq!(Direction::told(0x2400_0001), Some(Direction::SecondToFirst));
        assert_eq!(Direction::told(0x2C00_0001), None);
        assert_eq!([0x23FF_FFFF, 0x2BFF_FFFF].map(told), [Some(0), Some(0x0800_0000)]);
    }

    #[test]
    fn roads_lead_both_ways_or_one() {
        assert_eq!(ways(Road::both_ways(1, 4, 9)), [(1, 4), (4, 1)]);
        assert_eq!(ways(Road::one_way(1, 4, 9)), [(1, 4)]);
        assert_eq!(ways(Road::one_way(4, 1, 9)), [(4, 1)]);
        assert_eq!(
            Road::one_way(4, 1, 9),
            Road { direction: Direction::SecondToFirst, ..Road::both_ways(1, 4, 9) }
        );
    }

    #[test]
    fn turned_roads_lead_back() {
        for direction in Direction::ALL {
            let road = Road { direction, ..Road::both_ways(1, 4, 9) };
            let turned = Road { direction: direction.turned(), ..road };
            let mut back: Vec<_> = road.ways().map(|(from, to)| (to, from)).collect();
            back.sort();
            assert_eq!(ways(turned), back);
            assert_eq!(direction.turned().turned(), direction);
        }
    }
}
