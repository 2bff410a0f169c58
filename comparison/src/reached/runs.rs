//! The runs of surrounds, and which of them decide the rounds of a result.
//!
//! A result has one count, the greatest of all. Which run it comes from is found
//! here from the margins that the answer has of the operands.

use reference::answer::Answer;
use reference::distance::Distances;
use reference::margin::Margin;
use reference::meaning::rounds::settled;
use reference::sheet::{Bounds, Line, Operator, Sheet};

/// The greatest rounds of each sort of run; 0 where there is none.
#[derive(Clone, Copy, Debug, Default, PartialEq, Eq)]
pub struct Rounds {
    /// Code 15.
    pub with_islands: u64,
    /// Code 7, with a place beyond the ball cut out.
    pub beyond: u64,
    /// Code 7, with a place of the ball cut out.
    pub within: u64,
    /// Code 7, with nothing cut out; a run only where a place lies beyond.
    pub plain: u64,
}

impl Rounds {
    fn greater(self, other: Rounds) -> Rounds {
        Rounds {
            with_islands: self.with_islands.max(other.with_islands),
            beyond: self.beyond.max(other.beyond),
            within: self.within.max(other.within),
            plain: self.plain.max(other.plain),
        }
    }
}

/// A sheet with its answer.
pub struct Judged<'a> {
    sheet: &'a Sheet,
    answer: &'a Answer,
    distances: &'a Distances,
    neighbours: Vec<Vec<usize>>,
}

impl<'a> Judged<'a> {
    /// A sheet, its answer and its distances.
    pub fn new(sheet: &'a Sheet, answer: &'a Answer, distances: &'a Distances) -> Self {
        Judged { sheet, answer, distances, neighbours: sheet.neighbours() }
    }

    /// All places.
    pub fn places(&self) -> std::ops::Range<usize> {
        0..self.sheet.head.places
    }

    /// Whether all runs are made in no time.
    pub fn is_small(&self) -> bool {
        super::is_small(self.sheet)
    }

    /// The rounds of all surrounds.
    pub fn rounds(&self) -> Rounds {
        let lines = self.sheet.lines.iter().map(|line| self.of_line(line));
        lines.fold(Rounds::default(), Rounds::greater)
    }

    /// The rounds of the surrounds with islands alone, of which a sheet of any
    /// size makes few runs.
    pub fn rounds_with_islands(&self) -> u64 {
        let is_with = |line: &&Line| matches!(line.operator, Operator::SurroundOrIsland { .. });
        let lines = self.sheet.lines.iter().filter(is_with).map(|line| self.of_line(line));
        lines.fold(Rounds::default(), Rounds::greater).with_islands
    }

    fn of_line(&self, line: &Line) -> Rounds {
        let points = line.extent.samples().flat_map(|at| self.places().map(move |p| (at, p)));
        let rounds = points.map(|(sample, centre)| self.of_centre(&line.operator, sample, centre));
        rounds.fold(Rounds::default(), Rounds::greater)
    }

    fn of_centre(&self, operator: &Operator, sample: usize, centre: usize) -> Rounds {
        let Some((left, right, bounds)) = operator.surround() else {
            return Rounds::default();
        };
        let ball = Bounds { lower: 0, ..bounds };
        let left = self.masked(centre, ball, |place| self.margin(left, sample, place));
        let right = self.masked(centre, bounds, |place| self.margin(right, sample, place));
        let plain = settled(&self.neighbours, left.clone(), &right).1;
        if matches!(operator, Operator::SurroundOrIsland { .. }) {
            return Rounds { with_islands: plain, ..Rounds::default() };
        }
        let is_beyond = |&other: &usize| !self.distances.within(centre, other, ball);
        let others = self.others(centre);
        let cut_out = others.iter().filter(|other| !is_beyond(other));
        let within = cut_out.map(|&place| self.without(&left, &right, place).1);
        Rounds {
            with_islands: 0,
            beyond: if others.iter().any(is_beyond) { plain } else { 0 },
            within: within.max().unwrap_or(0),
            plain,
        }
    }

    /// Whether a centre has a region, but none with a boundary, whatever the
    /// margins are.
    pub fn is_island(&self, centre: usize, bounds: Bounds) -> bool {
        let ball = Bounds { lower: 0, ..bounds };
        let all = |bounds| self.masked(centre, bounds, |_| Margin::PlusInfinity);
        let (left, right) = (all(ball), all(bounds));
        let others = self.others(centre);
        let is_bounded =
            |&place: &usize| self.without(&left, &right, place).0[centre] > Margin::MinusInfinity;
        let holds_all = others.iter().all(|&place| self.distances.within(centre, place, ball));
        holds_all && !others.iter().any(is_bounded)
    }

    /// The least left over all that a centre can reach and the centre itself.
    pub fn least_left(&self, left: usize, sample: usize, centre: usize) -> Margin {
        let places = self.others(centre).into_iter().chain([centre]);
        Margin::least(places.map(|place| self.margin(left, sample, place)))
    }

    /// Limit and rounds with a place cut out.
    fn without(&self, left: &[Margin], right: &[Margin], place: usize) -> (Vec<Margin>, u64) {
        let mut left = left.to_vec();
        left[place] = Margin::MinusInfinity;
        settled(&self.neighbours, left, right)
    }

    /// Every other place with a distance from a centre.
    fn others(&self, centre: usize) -> Vec<usize> {
        let has_distance = |&other: &usize| self.distances.between(centre, other).is_some();
        self.places().filter(|&other| other != centre).filter(has_distance).collect()
    }

    fn masked(
        &self,
        centre: usize,
        bounds: Bounds,
        margin: impl Fn(usize) -> Margin,
    ) -> Vec<Margin> {
        let mask = |place: usize| match self.distances.within(centre, place, bounds) {
            true => margin(place),
            false => Margin::MinusInfinity,
        };
        self.places().map(mask).collect()
    }

    fn margin(&self, line: usize, sample: usize, place: usize) -> Margin {
        let line = &self.answer.lines[line];
        line.verdicts[(sample - line.first) * self.answer.places + place].margin
    }
}

#[cfg(test)]
mod tests {
    use super::*;
    use reference::builder::SheetBuilder;
    use reference::fast::Fast;
    use reference::generate::Case;
    use reference::layout::ENOUGH_DISTANCES;
    use reference::left::Left;
    use reference::sheet::check;

    /// What is found of a sheet whose line 2 is the last, a surround.
    fn found<T>(words: &[u32], find: impl Fn(&Judged, Bounds) -> T) -> T {
        let case = Case::of(words, 100);
        let mut left = Left {
            number: 0,
            distances: vec![0; case.distances],
            answer: vec![0; case.answer],
            result: vec![0; case.result],
        };
        let Left { distances, answer, result, .. } = &mut left;
        reference::judge::<Fast>(&case.sheet, distances, answer, result);
        let answer = left.whole_answer().expect("a whole answer");
        let sheet = check(words, ENOUGH_DISTANCES).expect("a valid sheet");
        let distances = Distances::new(sheet.head.places, &sheet.roads);
        let bounds = sheet.lines[2].operator.bounds().expect("bounds");
        find(&Judged::new(&sheet, &answer, &distances), bounds)
    }

    fn row_of_three(left: [i32; 3], right: [i32; 3]) -> SheetBuilder {
        SheetBuilder::new(3, 2, 1)
            .road(0, 1, 1)
            .road(1, 2, 1)
            .samples(&[left[0], right[0], left[1], right[1], left[2], right[2]])
            .at_least(0, 0)
            .at_least(1, 0)
    }

    /// Example H: with place 1 cut out place 0 takes two rounds, and with place 2,
    /// beyond its ball, three.
    #[test]
    fn example_h_has_its_rounds_from_beyond() {
        let words = row_of_three([4, 4, 4], [9, -3, 9]).bounded(7, 0, 1, (1, 1)).end();
        let rounds = found(&words, |judged, _| judged.rounds());
        assert_eq!(rounds, Rounds { with_islands: 0, beyond: 3, within: 2, plain: 3 });
        let words = row_of_three([4, 4, 4], [9, -3, 9]).bounded(15, 0, 1, (1, 1)).end();
        let rounds = found(&words, |judged, _| judged.rounds());
        assert_eq!(rounds, Rounds { with_islands: 3, ..Rounds::default() });
    }

    /// With bounds of 3..9 no boundary is allowed anywhere on the row; with 2..9
    /// place 0 has the region of 0 and 1, place 1 has none.
    #[test]
    fn islands_have_no_region_with_a_boundary() {
        let islands = |lower: u32| {
            let words = row_of_three([4; 3], [9; 3]).bounded(7, 0, 1, (lower, 9)).end();
            found(&words, |judged, bounds| [0, 1, 2].map(|place| judged.is_island(place, bounds)))
        };
        assert_eq!(islands(3), [true; 3]);
        assert_eq!(islands(2), [false, true, false]);
        assert_eq!(islands(1), [false; 3]);
    }
}
