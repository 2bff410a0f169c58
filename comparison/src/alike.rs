//! Two sheets alike in every word but their samples, each judged in a call of its
//! own with something else lent: what both say at every line, sample and place.

use crate::difference::{demand, Checked, Difference};
use crate::judging::{answered, Answered};
use crate::Engine;
use reference::answer::{Answer, AnswerLine};
use reference::generate::random::Random;
use reference::generate::valid::{LEAST, MOST};
use reference::margin::{Margin, Verdict};
use reference::words::{self, kinds};

/// The two sheets, X and Y, and what an engine says to them.
pub struct Alike {
    /// The words of both sheets.
    pub sheets: [Vec<u32>; 2],
    /// What is said to them: answers of the same shape.
    pub said: [Answered; 2],
}

/// What is said to both sheets at one line, sample and place.
#[derive(Clone, Copy, Debug)]
pub struct Point {
    /// The line.
    pub line: usize,
    /// The sample, by the recording's own numbers.
    pub sample: usize,
    /// The place.
    pub place: usize,
    /// The verdict of X.
    pub x: Verdict,
    /// The verdict of Y.
    pub y: Verdict,
}

impl Point {
    /// Whether a no of X is a yes of Y.
    pub fn became_yes(&self) -> bool {
        !self.x.yes && self.y.yes
    }

    /// By how much the margin of Y is above that of X, if both are whole numbers.
    pub fn rise(&self) -> Option<i64> {
        match (self.x.margin, self.y.margin) {
            (Margin::Finite(x), Margin::Finite(y)) => Some(y - x),
            _ => None,
        }
    }
}

impl Alike {
    /// Judges both sheets. Their answers must have verdicts at the same lines,
    /// samples and places.
    pub fn judged(
        engine: &dyn Engine,
        random: &mut Random,
        sheets: [Vec<u32>; 2],
    ) -> Result<Self, Difference> {
        let said = [answered(engine, random, &sheets[0])?, answered(engine, random, &sheets[1])?];
        let alike = Alike { sheets, said };
        let [x, y] = &alike.said;
        let same = shape(&x.answer) == shape(&y.answer);
        alike.demand(same, || "answers of unlike shape".into())?;
        Ok(alike)
    }

    /// How far apart the samples are, taken without sign, where they are farthest.
    pub fn apart(&self) -> i64 {
        self.moves().map(i64::abs).max().unwrap_or(0)
    }

    /// By how much each sample of Y is above that of X.
    pub fn moves(&self) -> impl Iterator<Item = i64> + '_ {
        let [x, y] = &self.sheets;
        samples(x).zip(samples(y)).map(|(x, y)| y - x)
    }

    /// What is said at every line, sample and place.
    pub fn points(&self) -> impl Iterator<Item = Point> + '_ {
        let [x, y] = self.said.each_ref().map(|said| &said.answer);
        let lines = x.lines.iter().zip(&y.lines).enumerate();
        lines.flat_map(|(line, (of_x, of_y))| {
            let rows = x.rows(of_x).zip(y.rows(of_y));
            rows.flat_map(move |((sample, x), (_, y))| row(line, sample, x, y))
        })
    }

    /// Demands something at every line, sample and place; tells the first point at
    /// which it is not so, and both sheets.
    pub fn demand_at_all(&self, what: &str, is_so: impl Fn(&Point) -> bool) -> Checked {
        match self.points().find(|point| !is_so(point)) {
            None => Ok(()),
            Some(point) => Err(self.on_both(Difference::new(format!("{what}: {point:?}")))),
        }
    }

    /// Demands something of both, or tells what was not so, and both sheets.
    pub fn demand(&self, condition: bool, otherwise: impl FnOnce() -> String) -> Checked {
        demand(condition, otherwise).map_err(|difference| self.on_both(difference))
    }

    fn on_both(&self, difference: Difference) -> Difference {
        let [x, y] = self.sheets.each_ref().map(|sheet| words::to_bytes(sheet));
        difference.on("one sheet", &x).on("the other sheet", &y)
    }
}

/// Where an answer has verdicts: the places, and each line's first sample and
/// count of verdicts.
fn shape(answer: &Answer) -> (usize, Vec<(usize, usize)>) {
    let size = |line: &AnswerLine| (line.first, line.verdicts.len());
    (answer.places, answer.lines.iter().map(size).collect())
}

fn row<'a>(
    line: usize,
    sample: usize,
    x: &'a [Verdict],
    y: &'a [Verdict],
) -> impl Iterator<Item = Point> + 'a {
    let places = x.iter().zip(y).enumerate();
    places.map(move |(place, (&x, &y))| Point { line, sample, place, x, y })
}

/// The samples of a sheet: of a valid one its words of kind 4, of a faulty one
/// every word that would be a sample where one belongs, wherever it stands.
pub fn samples(words: &[u32]) -> impl Iterator<Item = i64> + '_ {
    let samples = words.iter().filter(|&&word| words::is_sample(word));
    samples.map(|&word| words::signed27(word).into())
}

/// A sheet, valid or faulty, with other samples: each by its index among them and
/// its number, and no farther than samples go.
pub fn with_samples(words: &[u32], mut other: impl FnMut(usize, i64) -> i64) -> Vec<u32> {
    let mut words = words.to_vec();
    let samples = words.iter_mut().filter(|word| words::is_sample(**word));
    for (at, word) in samples.enumerate() {
        let number = other(at, words::signed27(*word).into());
        let number = number.clamp(LEAST.into(), MOST.into()) as i32;
        *word = words::word(kinds::SAMPLE, words::sample_payload(number));
    }
    words
}

#[cfg(test)]
mod tests {
    use super::*;
    use crate::Implementation;
    use reference::builder::SheetBuilder;

    /// Two places, one signal, two samples; line 1 has the second sample alone.
    fn sheet(numbers: [i32; 4]) -> Vec<u32> {
        let sheet = SheetBuilder::new(2, 1, 2).road(0, 1, 5).samples(&numbers);
        sheet.at_least(0, 3).bounded(13, 0, 0, (0, 1)).end()
    }

    #[test]
    fn samples_alone_are_replaced_and_stay_samples() {
        let most = i64::from(MOST);
        let other = with_samples(&sheet([1, 2, 3, 4]), |at, number| match at {
            0 => number - 2,
            1 => number + most,
            2 => -3 * most,
            _ => number,
        });
        assert_eq!(other, sheet([-1, MOST, LEAST, 4]));
        assert_eq!(samples(&other).collect::<Vec<_>>(), [-1, most, LEAST.into(), 4]);
    }

    /// A sample stands where a head, a constant or nothing belongs; a word of kind 4
    /// with bit 27 set is no sample.
    #[test]
    fn samples_of_a_faulty_sheet_are_replaced_wherever_they_stand() {
        let words = [0x40000001, 0x48000005, 0x50100000, 0x47FFFFFF, 0xF0000004, 0x4FFFFFFF];
        let other = with_samples(&words, |at, number| number + 2 + at as i64);
        let expected = [0x40000003, 0x48000005, 0x50100000, 0x40000002, 0xF0000004, 0x4FFFFFFF];
        assert_eq!(other, expected);
        assert_eq!(samples(&words).collect::<Vec<_>>(), [1, -1]);
    }

    #[test]
    fn points_are_those_of_the_answers() {
        let sheets = [sheet([1, 2, 3, 4]), sheet([1, 0, 7, 4])];
        let alike = Alike::judged(&Implementation, &mut Random::new(1), sheets).expect("alike");
        assert_eq!(alike.moves().collect::<Vec<_>>(), [0, -2, 4, 0]);
        assert_eq!(alike.apart(), 4);
        let finite = |margin: Margin| match margin {
            Margin::Finite(number) => number,
            _ => panic!("an infinity"),
        };
        let told = |point: Point| {
            let Point { line, sample, place, x, y } = point;
            (line, sample, place, finite(x.margin), finite(y.margin))
        };
        let expected = [
            (0, 0, 0, -2, -2),
            (0, 0, 1, -1, -3),
            (0, 1, 0, 0, 4),
            (0, 1, 1, 1, 1),
            (1, 1, 0, 0, 4),
            (1, 1, 1, 1, 1),
        ];
        assert_eq!(alike.points().map(told).collect::<Vec<_>>(), expected);
    }

    /// Line 1 is missing, or begins sooner.
    #[test]
    fn answers_of_unlike_shape_are_told() {
        let recorded = || SheetBuilder::new(2, 1, 2).road(0, 1, 5).samples(&[1, 2, 3, 4]);
        let shorter = recorded().at_least(0, 3).end();
        let sooner = recorded().at_least(0, 3).bounded(9, 0, 0, (0, 1)).end();
        for other in [shorter, sooner] {
            let sheets = [sheet([1, 2, 3, 4]), other];
            let unlike = Alike::judged(&Implementation, &mut Random::new(1), sheets).err();
            let unlike = unlike.expect("unlike shapes");
            assert_eq!(unlike.what, "answers of unlike shape");
            assert_eq!(unlike.found_on.len(), 2);
        }
    }

    /// The fault is told with the point and both sheets.
    #[test]
    fn the_first_point_that_breaks_a_demand_is_told() {
        let sheets = [sheet([1, 2, 3, 4]), sheet([1, 2, 7, 4])];
        let alike = Alike::judged(&Implementation, &mut Random::new(1), sheets).expect("alike");
        assert!(alike.demand_at_all("rises", |point| point.x.margin <= point.y.margin).is_ok());
        let broken = alike.demand_at_all("stays", |point| point.x == point.y);
        let broken = broken.expect_err("a margin rose");
        assert!(broken.what.starts_with("stays: ") && broken.what.contains("sample: 1, place: 0"));
        assert_eq!(broken.found_on.len(), 2);
    }
}
