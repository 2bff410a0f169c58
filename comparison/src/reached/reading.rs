//! What accepted sheets show of windows of until and since that are read from t
//! on, ahead or back: which sample decides, and when it is known what is said.

use super::{chosen, is_small};
use reference::answer::Answer;
use reference::left::Left;
use reference::margin::{Margin, Verdict};
use reference::sheet::{Bounds, Line, Operator, Reach, Sheet};

const UNTIL: u32 = 5;
const SINCE: u32 = 12;

/// What is looked for in a window.
const OF_WINDOW: [&str; 8] = [
    "known before its window is read to the end",
    "known before its lower bound",
    "its last sample decides the margin",
    "its last sample makes it a yes",
    "left before its lower bound decides the margin",
    "the sample before its lower bound would have given more",
    "the margin known before a yes is",
    "a window of one sample, not its own",
];

/// In the order of [`OF_WINDOW`].
type Shown = [bool; 8];

/// What is looked for in the number of places: an engine may read several side by
/// side, by fours, eights or sixteens, and some are left over.
const OF_PLACES: [&str; 2] = ["at 2 to 15 places", "at more than 16 places, an odd number"];

/// The texts of all labels.
pub fn labels() -> Vec<String> {
    let texts = || OF_WINDOW.iter().chain(&OF_PLACES);
    [UNTIL, SINCE]
        .into_iter()
        .flat_map(|code| texts().map(move |text| of_code(code, text)))
        .collect()
}

fn of_code(code: u32, text: &str) -> String {
    format!("code {code}, {text}")
}

/// The texts of the labels of a sheet, once for each line.
pub fn shown(sheet: &Sheet, left: &Left) -> Vec<String> {
    let is_read = |line: &&Line| [UNTIL, SINCE].contains(&line.operator.code());
    let lines: Vec<&Line> = sheet.lines.iter().filter(is_read).collect();
    let answer = if lines.is_empty() || !is_small(sheet) { None } else { left.whole_answer() };
    let of_line = |line: &Line| {
        let windows = answer.as_ref().map_or([false; 8], |answer| of_windows(answer, line));
        let code = line.operator.code();
        let shown = chosen(&OF_WINDOW, windows).chain(chosen(&OF_PLACES, of_places(sheet)));
        shown.map(move |text| of_code(code, text)).collect::<Vec<_>>()
    };
    lines.into_iter().flat_map(of_line).collect()
}

/// In the order of [`OF_PLACES`].
fn of_places(sheet: &Sheet) -> [bool; 2] {
    let places = sheet.head.places;
    [(2..16).contains(&places), places > 16 && places % 2 == 1]
}

/// What some window of a line shows.
fn of_windows(answer: &Answer, line: &Line) -> Shown {
    let places = 0..answer.places;
    let points = line.extent.samples().flat_map(|t| places.clone().map(move |place| (t, place)));
    let windows = points.filter_map(|(t, place)| Window::of(answer, &line.operator, t, place));
    let either = |one: Shown, other: Shown| std::array::from_fn(|at| one[at] || other[at]);
    windows.map(|window| window.shown()).fold([false; 8], either)
}

/// Left and right over one scale, from t on to the end of a window.
type Samples<T> = Vec<(T, T)>;

/// A window at one place, with what its samples are in the order of reading.
struct Window {
    lower: usize,
    margins: Samples<Margin>,
    verdicts: Samples<bool>,
}

impl Window {
    /// The window of an until or a since at t; none of another code.
    fn of(answer: &Answer, operator: &Operator, t: usize, place: usize) -> Option<Self> {
        let ([Some(left), Some(right)], Some(Bounds { lower, upper })) =
            (operator.operands(), operator.bounds())
        else {
            return None;
        };
        let sample = |far: usize| match operator.reach() {
            Reach::Back(_) => t - far,
            _ => t + far,
        };
        let said =
            |line: usize, far: usize| answer.verdict(line as u64, sample(far) as u64, place as u64);
        let samples = (0..=upper as usize).map(|far| Some((said(left, far)?, said(right, far)?)));
        let samples: Samples<Verdict> = samples.collect::<Option<_>>()?;
        Some(Window {
            lower: lower as usize,
            margins: samples.iter().map(|(left, right)| (left.margin, right.margin)).collect(),
            verdicts: samples.iter().map(|(left, right)| (left.yes, right.yes)).collect(),
        })
    }

    /// In the order of [`OF_WINDOW`].
    fn shown(&self) -> Shown {
        let (lower, upper) = (self.lower, self.margins.len() - 1);
        let carried = carried(&self.margins, lower, INFINITIES);
        let verdicts = self::carried(&self.verdicts, lower, (true, false));
        let (margin, yes) = (carried[upper].1, verdicts[upper].1);
        let known = carried.iter().position(|(held, said)| held <= said).unwrap_or(upper);
        let is_longer = lower < upper;
        [
            (lower..upper).contains(&known),
            known < lower,
            is_longer && carried[upper - 1].1 < margin,
            is_longer && !verdicts[upper - 1].1 && yes,
            margin > Margin::MinusInfinity && self.with_left_forgotten() > margin,
            lower > 0 && self::carried(&self.margins, lower - 1, INFINITIES)[upper].1 > margin,
            !verdicts[known].1 && yes,
            lower > 0 && !is_longer,
        ]
    }

    /// The margin if left were not asked for before the lower bound.
    fn with_left_forgotten(&self) -> Margin {
        let from_lower = carried(&self.margins[self.lower..], 0, INFINITIES);
        from_lower.last().map_or(Margin::MinusInfinity, |(_, said)| *said)
    }
}

/// The least of nothing, and the greatest.
const INFINITIES: (Margin, Margin) = (Margin::PlusInfinity, Margin::MinusInfinity);

/// After each sample: the least left so far, and what is said for the window read
/// so far.
fn carried<T: Copy + Ord>(samples: &[(T, T)], lower: usize, nothing: (T, T)) -> Samples<T> {
    let (mut held, mut said) = nothing;
    let mut after = Vec::with_capacity(samples.len());
    for (far, &(left, right)) in samples.iter().enumerate() {
        held = held.min(left);
        if far >= lower {
            said = said.max(held.min(right));
        }
        after.push((held, said));
    }
    after
}

#[cfg(test)]
mod tests {
    use super::Margin::{Finite, MinusInfinity};
    use super::*;

    /// What a window of these margins shows. A 0 is a yes for left, and for right
    /// at the last sample alone.
    fn shown(lower: usize, left: &[i64], right: &[i64]) -> Vec<&'static str> {
        let finite = left.iter().zip(right).map(|(&left, &right)| (Finite(left), Finite(right)));
        let last = left.len() - 1;
        let yes = left.iter().zip(right).enumerate();
        let yes =
            yes.map(|(far, (&left, &right))| (left >= 0, right > 0 || right == 0 && far == last));
        let window = Window { lower, margins: finite.collect(), verdicts: yes.collect() };
        chosen(&OF_WINDOW, window.shown()).collect()
    }

    /// The worked example is known with its second sample.
    #[test]
    fn the_worked_example() {
        assert_eq!(shown(1, &[5, 4, 2, 3], &[-3, 6, 1, 9]), [OF_WINDOW[0]]);
        let margins = [(5, -3), (4, 6), (2, 1), (3, 9)];
        let margins = margins.map(|(left, right)| (Finite(left), Finite(right)));
        let said = [MinusInfinity, Finite(4), Finite(4), Finite(4)];
        let held = [5, 4, 2, 2].map(Finite);
        let expected: Vec<_> = held.into_iter().zip(said).collect();
        assert_eq!(carried(&margins, 1, INFINITIES), expected);
    }

    #[test]
    fn the_last_sample_decides() {
        assert_eq!(shown(0, &[9, 8, 7], &[-1, -2, 3]), [OF_WINDOW[2], OF_WINDOW[3]]);
        assert_eq!(shown(0, &[9, 8, 7], &[1, -2, 3]), [OF_WINDOW[2]]);
    }

    #[test]
    fn left_before_the_lower_bound_decides() {
        assert_eq!(shown(1, &[2, 5, 5], &[-9, 4, 4])[1..], [OF_WINDOW[4]]);
        assert_eq!(shown(1, &[2, 5, 5], &[-9, 2, 2])[1..], [""; 0]);
    }

    #[test]
    fn the_sample_before_would_have_given_more() {
        assert_eq!(shown(1, &[9, 9], &[5, 3]), [OF_WINDOW[5], OF_WINDOW[7]]);
    }

    #[test]
    fn a_margin_of_0_is_known_before_its_verdict() {
        let expected = [OF_WINDOW[0], OF_WINDOW[3], OF_WINDOW[6]];
        assert_eq!(shown(0, &[0, 0], &[0, 0]), expected);
    }

    #[test]
    fn without_left_there_is_nothing_to_wait_for() {
        let margins = vec![(MinusInfinity, Finite(1)); 3];
        let window = Window { lower: 1, margins, verdicts: vec![(false, true); 3] };
        assert_eq!(chosen(&OF_WINDOW, window.shown()).collect::<Vec<_>>(), [OF_WINDOW[1]]);
    }
}
