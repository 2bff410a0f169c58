//! Rounds of a surround.

use super::World;
use crate::margin::Margin;
use crate::sheet::{Bounds, Line, Operator};

/// The greatest rounds of a line over its samples and centres, 0 for a line
/// that is no surround.
pub(super) fn of_line(world: &World, line: &Line) -> u64 {
    let places = 0..world.places();
    let points = line.extent.samples().flat_map(|at| places.clone().map(move |place| (at, place)));
    points
        .map(|(sample, centre)| of_centre(world, &line.operator, sample, centre))
        .max()
        .unwrap_or(0)
}

/// The rounds at one sample and centre: of the one iteration for code 15, of
/// several for code 7.
fn of_centre(world: &World, operator: &Operator, sample: usize, centre: usize) -> u64 {
    let Some((left, right, bounds)) = operator.surround() else {
        return 0;
    };
    let inner = Bounds { lower: 0, ..bounds };
    let s1 = masked(world, left, sample, centre, inner);
    let s2 = masked(world, right, sample, centre, bounds);
    match operator {
        Operator::Surround { .. } => of_runs(world, centre, &s1, &s2),
        _ => settled(&world.neighbours, s1, &s2).1,
    }
}

/// "Code 7 runs the published iteration once for each other place with a
/// distance from the centre, that place's left set to minus infinity. [..] The
/// rounds are their greatest count, 0 for a lone place."
fn of_runs(world: &World, centre: usize, s1: &[Margin], s2: &[Margin]) -> u64 {
    let has_distance = |&other: &usize| world.distances.between(centre, other).is_some();
    let others = (0..world.places()).filter(|&other| other != centre).filter(has_distance);
    let run = |other: usize| {
        let mut s1 = s1.to_vec();
        s1[other] = Margin::MinusInfinity;
        settled(&world.neighbours, s1, s2).1
    };
    others.map(run).max().unwrap_or(0)
}

/// A masked signal of Corollary 4.6: the margins within the bounds of the
/// centre, minus infinity at all other places.
fn masked(world: &World, line: usize, sample: usize, centre: usize, bounds: Bounds) -> Vec<Margin> {
    let mask = |place: usize| {
        if world.distances.within(centre, place, bounds) {
            world.margin(line, sample, place)
        } else {
            Margin::MinusInfinity
        }
    };
    (0..world.places()).map(mask).collect()
}

/// The limit of the iteration, and its rounds: "1 plus the least i at which step
/// i + 1 equals step i at all places". Step 0 is s1.
pub fn settled(neighbours: &[Vec<usize>], s1: Vec<Margin>, s2: &[Margin]) -> (Vec<Margin>, u64) {
    let mut step = s1;
    let mut i = 0;
    loop {
        let following = next(neighbours, &step, s2);
        if following == step {
            return (step, 1 + i);
        }
        step = following;
        i += 1;
    }
}

/// Definition 4.4 (2): a step from the former one, "all places stepping
/// together from the former round". Neighbours are the places to which a road leads.
fn next(neighbours: &[Vec<usize>], step: &[Margin], s2: &[Margin]) -> Vec<Margin> {
    let at = |place: usize| {
        let around = neighbours[place].iter();
        let least = Margin::least(around.map(|&other| step[other].max(s2[other])));
        step[place].min(least)
    };
    (0..step.len()).map(at).collect()
}

#[cfg(test)]
mod tests {
    use super::Margin::{Finite, MinusInfinity};
    use super::*;

    /// Example H at place 0 with place 2 cut out, which lies beyond the ball.
    #[test]
    fn example_h_takes_three_rounds() {
        let path = vec![vec![1], vec![0, 2], vec![1]];
        let s1 = vec![Finite(4), Finite(4), MinusInfinity];
        let s2 = [MinusInfinity, Finite(-3), MinusInfinity];
        let limit = vec![Finite(-3), MinusInfinity, MinusInfinity];
        assert_eq!(settled(&path, s1, &s2), (limit, 3));
    }

    /// With place 1 cut out: its right brings place 0 down in one step.
    #[test]
    fn example_h_with_place_1_cut_out_takes_two() {
        let path = vec![vec![1], vec![0, 2], vec![1]];
        let s1 = vec![Finite(4), MinusInfinity, MinusInfinity];
        let s2 = [MinusInfinity, Finite(-3), MinusInfinity];
        let limit = vec![Finite(-3), MinusInfinity, MinusInfinity];
        assert_eq!(settled(&path, s1, &s2), (limit, 2));
    }

    /// Example H with roads that lead from 2 to 0 alone: place 0 looks at nothing, and
    /// place 1 at place 0, whose left holds it up.
    #[test]
    fn nothing_is_handed_on_against_the_direction() {
        let path = vec![vec![], vec![0], vec![1]];
        let s1 = vec![Finite(4), Finite(4), MinusInfinity];
        let s2 = [MinusInfinity, Finite(-3), MinusInfinity];
        assert_eq!(settled(&path, s1.clone(), &s2), (s1, 1));
    }

    #[test]
    fn a_fixed_point_takes_one_round() {
        let s1 = vec![Finite(7)];
        assert_eq!(settled(&[vec![]], s1.clone(), &[Finite(0)]), (s1, 1));
    }
}
