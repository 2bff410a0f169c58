//! The two surrounds, by Algorithm 2 of the paper.

use super::rows::Rows;
use super::scale::Scale;
use super::space::Space;
use crate::sheet::Bounds;

/// Whether a region with an empty boundary counts.
#[derive(Clone, Copy)]
pub enum Islands {
    /// It does not: code 7.
    LeftOut,
    /// It does: code 15.
    Counted,
}

/// A value with the rounds that it took.
type Settled<S> = (S, u64);

/// A surround: for each centre and sample the masked signals of Corollary 4.6
/// are iterated to the fixed point, whose value at the centre counts. Also gives
/// the greatest number of rounds.
pub fn surround<S: Scale>(
    space: &Space,
    left: Rows<S>,
    right: Rows<S>,
    bounds: Bounds,
    islands: Islands,
) -> (Vec<S>, u64) {
    let mut values = vec![S::BOTTOM; left.values.len()];
    let mut settling = Settling::new(space, islands);
    let mut greatest = 0;
    for place in 0..space.places {
        let centre = Centre::new(space, place, bounds, islands);
        greatest = greatest.max(settling.of_centre(&centre, left, right, &mut values));
    }
    (values, greatest)
}

/// What serves all fixed points of a line, so that memory is taken once.
struct Settling<'a, S> {
    space: &'a Space<'a>,
    islands: Islands,
    signals: Signals<S>,
    iteration: Iteration<S>,
}

impl<'a, S: Scale> Settling<'a, S> {
    fn new(space: &'a Space, islands: Islands) -> Self {
        let (signals, iteration) = (Signals::new(space.places), Iteration::new(space.places));
        Settling { space, islands, signals, iteration }
    }

    /// Sets a centre's value in the row of every sample; gives the greatest rounds.
    fn of_centre(
        &mut self,
        centre: &Centre,
        left: Rows<S>,
        right: Rows<S>,
        values: &mut [S],
    ) -> u64 {
        let Settling { space, islands, signals, iteration } = self;
        let mut greatest = 0;
        for (at, row) in values.chunks_exact_mut(space.places).enumerate() {
            signals.mask(centre, left.row(at), right.row(at));
            let (settled, rounds) = match islands {
                Islands::LeftOut => iteration.runs(space, centre, signals),
                Islands::Counted => iteration.run(space, centre.place, signals, None),
            };
            row[centre.place] = settled;
            greatest = greatest.max(rounds);
        }
        greatest
    }
}

/// What is seen from a centre.
struct Centre {
    place: usize,
    /// The places within 0..upper, where left counts.
    region: Vec<usize>,
    /// The places within lower..upper, where right counts.
    boundary: Vec<usize>,
    /// Every other place with a distance; asked for where islands are left out.
    others: Vec<usize>,
}

impl Centre {
    fn new(space: &Space, place: usize, bounds: Bounds, islands: Islands) -> Self {
        let inner = Bounds { lower: 0, ..bounds };
        let others = match islands {
            Islands::LeftOut => space.others(place),
            Islands::Counted => Vec::new(),
        };
        let (region, boundary) = (space.in_range(place, inner), space.in_range(place, bounds));
        Centre { place, region, boundary, others }
    }
}

/// The masked signals s1 and s2: "minus infinity" outside the bounds.
struct Signals<S> {
    left: Vec<S>,
    right: Vec<S>,
}

impl<S: Scale> Signals<S> {
    fn new(places: usize) -> Self {
        Signals { left: vec![S::BOTTOM; places], right: vec![S::BOTTOM; places] }
    }

    /// Masks a row of left and a row of right.
    fn mask(&mut self, centre: &Centre, left: &[S], right: &[S]) {
        self.left.fill(S::BOTTOM);
        self.right.fill(S::BOTTOM);
        for &place in &centre.region {
            self.left[place] = left[place];
        }
        for &place in &centre.boundary {
            self.right[place] = right[place];
        }
    }

    /// Those of the other places whose runs have to be taken. Where left is minus
    /// infinity, it is set to what it is: such a run is the plain one, and the
    /// first of them stands for all. Every place beyond the upper bound is one,
    /// left being masked there.
    fn cut_out(&self, others: &[usize]) -> Vec<usize> {
        let mut is_first = true;
        let differs = |&other: &usize| {
            self.left[other] != S::BOTTOM || std::mem::replace(&mut is_first, false)
        };
        others.iter().copied().filter(differs).collect()
    }
}

/// The steps of an iteration.
struct Iteration<S> {
    /// The present step X(i, ·) of Definition 4.4.
    step: Vec<S>,
    /// The step that follows.
    next: Vec<S>,
    /// What each place offers those from which a road leads to it: max(X(i, ·), s2).
    offered: Vec<S>,
}

impl<S: Scale> Iteration<S> {
    fn new(places: usize) -> Self {
        let bottom = vec![S::BOTTOM; places];
        Iteration { step: bottom.clone(), next: bottom.clone(), offered: bottom }
    }

    /// "Code 7 runs the published iteration once for each other place with a
    /// distance from the centre, that place's left set to minus infinity. The
    /// margin is the greatest of these results, and the rounds are their greatest
    /// count, 0 for a lone place."
    fn runs(&mut self, space: &Space, centre: &Centre, signals: &Signals<S>) -> Settled<S> {
        let cut_out = signals.cut_out(&centre.others).into_iter();
        let results = cut_out.map(|place| self.run(space, centre.place, signals, Some(place)));
        results.fold((S::BOTTOM, 0), |best, result| (best.0.max(result.0), best.1.max(result.1)))
    }

    /// The limit at the centre from X(0, ·) = s1, with one place cut out or none,
    /// and the rounds.
    fn run(
        &mut self,
        space: &Space,
        centre: usize,
        signals: &Signals<S>,
        cut_out: Option<usize>,
    ) -> Settled<S> {
        self.step.copy_from_slice(&signals.left);
        if let Some(place) = cut_out {
            self.step[place] = S::BOTTOM;
        }
        let rounds = self.settle(&space.neighbours, &signals.right);
        (self.step[centre], rounds)
    }

    /// Steps until no place changes; gives the rounds, "1 plus the least i at
    /// which step i + 1 equals step i at all places".
    fn settle(&mut self, neighbours: &[Vec<usize>], right: &[S]) -> u64 {
        let mut rounds = 0;
        loop {
            self.advance(neighbours, right);
            rounds += 1;
            if self.next == self.step {
                break rounds;
            }
            std::mem::swap(&mut self.step, &mut self.next);
        }
    }

    /// Definition 4.4 (2), all places from the former step. A place looks at those to
    /// which a road leads from it.
    fn advance(&mut self, neighbours: &[Vec<usize>], right: &[S]) {
        let sides = self.step.iter().zip(right);
        for (offered, (&step, &right)) in self.offered.iter_mut().zip(sides) {
            *offered = step.max(right);
        }
        let steps = self.step.iter().zip(neighbours);
        for (next, (&step, around)) in self.next.iter_mut().zip(steps) {
            let offers = around.iter().map(|&place| self.offered[place]);
            *next = offers.fold(step, S::min);
        }
    }
}
