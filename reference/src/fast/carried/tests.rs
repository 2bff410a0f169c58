//! What is carried after each sample is what the definitions say of the window
//! cut at that sample, over margins and over verdicts, ahead and back.

use super::super::rows::Rows;
use super::super::{ahead, back, scale};
use super::*;
use crate::generate::random::Random;
use crate::margin::Margin;
use crate::meaning::{boolean, quantitative};
use crate::sheet::Bounds;
use std::fmt::Debug;

/// Few numbers, so that many are 0, where the verdict may be either.
const NUMBERS: [i32; 9] = [i32::BOTTOM, -2, -1, 0, 0, 0, 1, 2, i32::TOP];

/// How many signals are drawn.
const SEEDS: u64 = 3_000;

#[derive(Clone, Copy, Debug)]
enum Way {
    Ahead,
    Back,
}

const BOTH: [Way; 2] = [Way::Ahead, Way::Back];

impl Way {
    /// The first t of a line with this upper bound.
    fn first(self, upper: usize) -> usize {
        match self {
            Way::Ahead => 0,
            Way::Back => upper,
        }
    }

    /// The sample so far from t.
    fn sample(self, t: usize, far: usize) -> usize {
        match self {
            Way::Ahead => t + far,
            Way::Back => t - far,
        }
    }

    /// Until or since of whole operands, as a line has it.
    fn said<S: Scale>(self, left: Rows<S>, right: Rows<S>, bounds: Bounds) -> Vec<S> {
        match self {
            Way::Ahead => ahead::until(left, right, bounds),
            Way::Back => back::since(left, right, bounds),
        }
    }
}

/// Left and right over one scale, row by row.
#[derive(Debug)]
struct Signals<S> {
    left: Vec<S>,
    right: Vec<S>,
}

impl<S: Scale> Signals<S> {
    /// The signals of one place of so many.
    fn of_place(&self, place: usize, places: usize) -> Self {
        let of = |signal: &[S]| signal.iter().skip(place).step_by(places).copied().collect();
        Signals { left: of(&self.left), right: of(&self.right) }
    }
}

/// A scale with what the definitions say over it.
trait Meant: Scale + Debug {
    /// Until or since of one place at t.
    fn meant(signals: &Signals<Self>, way: Way, t: usize, bounds: Bounds) -> Self;
}

impl Meant for i32 {
    fn meant(signals: &Signals<i32>, way: Way, t: usize, bounds: Bounds) -> i32 {
        let left = |at: usize| scale::margin(signals.left[at]);
        let right = |at: usize| scale::margin(signals.right[at]);
        let margin = match way {
            Way::Ahead => quantitative::until(t, bounds, left, right),
            Way::Back => quantitative::since(t, bounds, left, right),
        };
        match margin {
            Margin::MinusInfinity => i32::BOTTOM,
            Margin::Finite(number) => number as i32,
            Margin::PlusInfinity => i32::TOP,
        }
    }
}

impl Meant for bool {
    fn meant(signals: &Signals<bool>, way: Way, t: usize, bounds: Bounds) -> bool {
        let (left, right) = (|at: usize| signals.left[at], |at: usize| signals.right[at]);
        match way {
            Way::Ahead => boolean::until(t, bounds, left, right),
            Way::Back => boolean::since(t, bounds, left, right),
        }
    }
}

/// Margins with infinities and ties, and verdicts that go with them.
fn drawn(random: &mut Random, count: usize) -> (Signals<i32>, Signals<bool>) {
    let mut numbers = || (0..count).map(|_| random.pick(&NUMBERS)).collect::<Vec<i32>>();
    let margins = Signals { left: numbers(), right: numbers() };
    let mut holds = |&number: &i32| number > 0 || number == 0 && random.chance(50);
    let left = margins.left.iter().map(&mut holds).collect();
    let right = margins.right.iter().map(&mut holds).collect();
    (margins, Signals { left, right })
}

fn drawn_bounds(random: &mut Random) -> Bounds {
    let upper = random.field(0, 9);
    Bounds { lower: random.field(0, upper), upper }
}

/// Reads the only window that a place's signals have room for; gives what is
/// carried after each sample, and whether nothing more had to be read.
fn read<S: Scale>(signals: &Signals<S>, way: Way, bounds: Bounds) -> Vec<(S, S, bool)> {
    let t = way.first(bounds.upper as usize);
    let (mut held, mut said) = ([S::BOTTOM], [S::TOP]);
    let mut carried = Carried::new(&mut held, &mut said);
    let mut after = Vec::new();
    for far in 0..=bounds.upper {
        let at = way.sample(t, far as usize);
        carried.read(&signals.left[at..=at], &signals.right[at..=at], far >= bounds.lower);
        after.push((carried.held[0], carried.said[0], carried.is_known()));
    }
    after
}

fn assert_carried<S: Meant>(signals: &Signals<S>, way: Way, bounds: Bounds) {
    let t = way.first(bounds.upper as usize);
    let whole = S::meant(signals, way, t, bounds);
    for (far, (held, said, is_known)) in read(signals, way, bounds).into_iter().enumerate() {
        let so_far = (0..=far).map(|far| signals.left[way.sample(t, far)]);
        assert_eq!(Some(held), so_far.min(), "{way:?} {bounds:?} {far} {signals:?}");
        let cut = Bounds { upper: far as u32, ..bounds };
        let is_before = cut.upper < cut.lower;
        let meant = if is_before { S::BOTTOM } else { S::meant(signals, way, t, cut) };
        assert_eq!(said, meant, "{way:?} {bounds:?} {far} {signals:?}");
        assert!(!is_known || said == whole, "{way:?} {bounds:?} {far} {signals:?}");
    }
}

#[test]
fn after_each_sample_the_least_left_and_the_window_so_far() {
    for seed in 0..SEEDS {
        let mut random = Random::new(seed);
        let bounds = drawn_bounds(&mut random);
        let (margins, verdicts) = drawn(&mut random, bounds.upper as usize + 1);
        for way in BOTH {
            assert_carried(&margins, way, bounds);
            assert_carried(&verdicts, way, bounds);
        }
    }
}

fn assert_said<S: Meant>(signals: &Signals<S>, places: usize, bounds: Bounds) {
    let rows = |values| Rows { values, places };
    let count = signals.left.len() / places - bounds.upper as usize;
    for way in BOTH {
        let said = way.said(rows(&signals.left), rows(&signals.right), bounds);
        for place in 0..places {
            let here = signals.of_place(place, places);
            let first = way.first(bounds.upper as usize);
            let meant = (first..first + count).map(|t| S::meant(&here, way, t, bounds));
            let said = said.iter().skip(place).step_by(places).copied();
            assert!(said.eq(meant), "{way:?} {bounds:?} {here:?}");
        }
    }
}

/// Places are read together, and it is known at some before it is at others.
#[test]
fn lines_say_what_the_definitions_say() {
    for seed in 0..SEEDS {
        let mut random = Random::new(seed);
        let bounds = drawn_bounds(&mut random);
        let (places, spare) = (random.count(1, 3), random.count(1, 4));
        let count = places * (bounds.upper as usize + spare);
        let (margins, verdicts) = drawn(&mut random, count);
        assert_said(&margins, places, bounds);
        assert_said(&verdicts, places, bounds);
    }
}

const ONE_TO_THREE: Bounds = Bounds { lower: 1, upper: 3 };

/// The worked example: the second sample offers 4, as much as left has been, so
/// the two behind it cannot change it.
#[test]
fn the_worked_example() {
    let expected = [(5, i32::BOTTOM, false), (4, 4, true), (2, 4, true), (2, 4, true)];
    let ahead = Signals { left: vec![5, 4, 2, 3], right: vec![-3, 6, 1, 9] };
    assert_eq!(read(&ahead, Way::Ahead, ONE_TO_THREE), expected);
    let back = Signals { left: vec![3, 2, 4, 5], right: vec![9, 1, 6, -3] };
    assert_eq!(read(&back, Way::Back, ONE_TO_THREE), expected);
}

/// Of no left there is nothing to wait for.
#[test]
fn known_before_the_lower_bound() {
    let bottom = i32::BOTTOM;
    let signals = Signals { left: vec![bottom; 4], right: vec![1; 4] };
    for way in BOTH {
        assert_eq!(read(&signals, way, ONE_TO_THREE), [(bottom, bottom, true); 4]);
    }
}

/// Left is yes 0 both times, right no 0 and then yes 0: the margin is known from
/// the first sample, the verdict comes with the second.
#[test]
fn a_margin_may_be_known_before_its_verdict() {
    let bounds = Bounds { lower: 0, upper: 1 };
    let margins = Signals { left: vec![0, 0], right: vec![0, 0] };
    let verdicts = Signals { left: vec![true, true], right: vec![false, true] };
    assert_eq!(read(&margins, Way::Ahead, bounds), [(0, 0, true); 2]);
    assert_eq!(read(&verdicts, Way::Ahead, bounds), [(true, false, false), (true, true, true)]);
}
