//! The two surrounds, with and without islands, worked out by hand.

mod common;

use common::*;
use reference::builder::SheetBuilder;
use reference::fast::Fast;
use reference::generate::network;
use reference::generate::random::Random;
use reference::layout::Layout;
use reference::margin::Verdict;
use reference::meaning::Meaning;
use reference::print::print;
use reference::road::Road;
use reference::words;

/// Code 7, to which a region with an empty boundary does not count, and code 15,
/// to which it does.
const WITHOUT: u32 = 7;
const WITH: u32 = 15;

const GREATEST: u32 = (1 << 28) - 1;

/// One sample of a network whose roads run both ways.
fn network(roads: &[(usize, usize, u32)], places: &[(i32, i32)]) -> SheetBuilder {
    let road =
        |&(first, second, weight): &(usize, usize, u32)| Road::both_ways(first, second, weight);
    let roads: Vec<Road> = roads.iter().map(road).collect();
    left_and_right(Layout::Narrow, &roads, places)
}

/// The verdicts of line 0 surrounded by line 1, and the rounds.
fn surround(sheet: &SheetBuilder, code: u32, bounds: (u32, u32)) -> (Vec<Verdict>, u64) {
    let words = sheet.clone().bounded(code, 0, 1, bounds).end();
    (last_line(&words), outcome(&judged_words(&words)).rounds)
}

/// Both places have one region with a boundary, the place alone: 5 by 4, 6 by 3.
/// The island of both has 5. Cutting the other place out takes two rounds, as
/// right brings left down; so does the island's iteration, from (5, 6) to (5, 5).
const TEXT: &str = "\
accepted 14 2 8
0 0 yes 5 yes 6
1 0 yes 3 yes 4
2 0 yes 4 yes 3
3 0 yes 5 yes 5
end 4
";

#[test]
fn the_example_prints_its_rows() {
    let input = words::to_bytes(&ISLANDS);
    assert_eq!(print::<Meaning>(&input), TEXT);
    assert_eq!(print::<Fast>(&input), TEXT);
}

/// The file that hosts are tried on.
#[test]
fn the_example_as_a_file() {
    let file = include_bytes!("../examples/islands.sheet");
    assert_eq!(file[..], words::to_bytes(&ISLANDS));
}

#[test]
fn lone_places_have_no_run() {
    let sheet = network(&[], &[(4, 9), (-5, 9)]);
    assert_eq!(surround(&sheet, WITHOUT, (0, 9)), (vec![NO_MINUS_INFINITY; 2], 0));
    assert_eq!(surround(&sheet, WITH, (0, 9)), (vec![yes(4), no(-5)], 1));
}

/// Beside a road of which it is no part, place 0 stays a lone place. Places 1
/// and 2 are all that there is for each other: only the other is cut out.
#[test]
fn one_component_of_two() {
    let sheet = network(&[(1, 2, 1)], &[(4, 9), (5, 3), (6, 2)]);
    let without = vec![NO_MINUS_INFINITY, yes(2), yes(3)];
    assert_eq!(surround(&sheet, WITHOUT, (0, 9)), (without, 2));
    assert_eq!(surround(&sheet, WITH, (0, 9)), (vec![yes(4), yes(5), yes(5)], 2));
}

/// A boundary would have to lie at 6 to 9, and the only road has 5. What is left
/// is the island of both. Its iteration rests from the start; with one of them
/// cut out the other falls, in a second round.
#[test]
fn an_island_is_all_there_is() {
    let sheet = network(&[(0, 1, 5)], &[(4, 9), (4, 9)]);
    assert_eq!(surround(&sheet, WITHOUT, (6, 9)), (vec![NO_MINUS_INFINITY; 2], 2));
    assert_eq!(surround(&sheet, WITH, (6, 9)), (vec![yes(4); 2], 1));
}

/// Within 0..0 there is only the centre: it has a boundary beyond, or none.
#[test]
fn nothing_is_around_within_distance_0() {
    let sheet = network(&[(0, 1, 1)], &[(4, 9), (4, 9), (7, 9)]);
    assert_eq!(surround(&sheet, WITHOUT, (0, 0)).0, [NO_MINUS_INFINITY; 3]);
    assert_eq!(surround(&sheet, WITH, (0, 0)).0, [NO_MINUS_INFINITY, NO_MINUS_INFINITY, yes(7)]);
}

/// Regions with their boundaries at place 0: {0} 2 (7 by 2 and 3), {0, 1} 3,
/// {0, 2} 2; at place 1: {1} 1, {0, 1} 3, {1, 2} 1; at place 2: {2} 1, {0, 2} 2,
/// {1, 2} 1. The island of all has 5.
#[test]
fn the_best_region_with_a_boundary_counts() {
    let triangle = [(0, 1, 1), (0, 2, 1), (1, 2, 1)];
    let sheet = network(&triangle, &[(7, 1), (6, 2), (5, 3)]);
    assert_eq!(surround(&sheet, WITHOUT, (0, 9)).0, [yes(3), yes(3), yes(2)]);
    assert_eq!(surround(&sheet, WITH, (0, 9)).0, [yes(5); 3]);
}

/// From places 0 and 2 the ball 0..1 ends before the network does, so that no
/// island is allowed. From place 1 it holds all: {0, 1} by place 2 has 3, the
/// island 4.
#[test]
fn a_ball_that_ends_before_the_network() {
    let sheet = row_of_three([4, 4, 4], [1, 2, 3]);
    assert_eq!(surround(&sheet, WITHOUT, (0, 1)).0, [yes(2), yes(3), yes(2)]);
    assert_eq!(surround(&sheet, WITH, (0, 1)).0, [yes(2), yes(4), yes(2)]);
}

/// Example H alone has three rounds from place 2's run, which lies beyond the
/// ball: with it the network ends at place 1, whose run takes two.
#[test]
fn places_beyond_the_ball_have_a_run() {
    let three = row_of_three([4, 4, 4], [9, -3, 9]);
    assert_eq!(surround(&three, WITHOUT, (1, 1)).1, 3);
    let two = network(&[(0, 1, 1)], &[(4, 9), (4, -3)]);
    assert_eq!(surround(&two, WITHOUT, (1, 1)), (vec![no(-3), yes(4)], 2));
}

/// With the other place cut out nothing changes at either centre: right is high
/// enough. Were the centre cut out, the other place would fall, as right is
/// masked at the centre: two rounds.
#[test]
fn the_centre_is_never_cut_out() {
    let sheet = network(&[(0, 1, 1)], &[(4, 9), (4, 9)]);
    assert_eq!(surround(&sheet, WITHOUT, (1, 9)), (vec![yes(4); 2], 1));
}

#[test]
fn infinities_are_surrounded_too() {
    let sheet = network(&[(0, 1, 1)], &[(4, 9), (4, 9), (4, 9)]).truth().line(3, 2, 0);
    let by = |code: u32, left: u32, right: u32| {
        last_line(&sheet.clone().bounded(code, left, right, (0, GREATEST)).end())
    };
    let both = [YES_PLUS_INFINITY; 2];
    assert_eq!(by(WITHOUT, 2, 2), [&both[..], &[NO_MINUS_INFINITY]].concat());
    assert_eq!(by(WITH, 2, 2), [YES_PLUS_INFINITY; 3]);
    assert_eq!(by(WITHOUT, 2, 3), [NO_MINUS_INFINITY; 3]);
    assert_eq!(by(WITH, 2, 3), [YES_PLUS_INFINITY; 3]);
    assert_eq!(by(WITHOUT, 3, 2), [NO_MINUS_INFINITY; 3]);
    assert_eq!(by(WITH, 3, 2), [NO_MINUS_INFINITY; 3]);
}

/// Lines 0 and 1 are yes 0 and its not, no 0. A region's verdicts decide, not
/// the margin, which is 0 throughout: yes 0 by no 0 is a no, and a yes only as
/// an island.
#[test]
fn verdicts_come_from_verdicts() {
    let sheet = SheetBuilder::new(2, 1, 1).road(0, 1, 1).samples(&[5, 5]);
    let sheet = sheet.at_least(0, 5).line(3, 0, 0).truth();
    let by = |code: u32, left: u32, right: u32| {
        last_line(&sheet.clone().bounded(code, left, right, (0, 9)).end())
    };
    assert_eq!([by(WITHOUT, 0, 2), by(WITHOUT, 2, 0), by(WITHOUT, 0, 0)].concat(), [yes(0); 6]);
    assert_eq!([by(WITHOUT, 1, 2), by(WITHOUT, 2, 1), by(WITHOUT, 0, 1)].concat(), [no(0); 6]);
    assert_eq!(by(WITH, 0, 1), [yes(0); 2]);
    assert_eq!(by(WITH, 1, 0), [no(0); 2]);
}

/// Every region with a boundary leaves out a place that the centre can reach, and
/// every region that leaves one out has a boundary: so all regions (the
/// definition) and one run for each place (the fast path) say the same, of
/// verdicts too. Rounds are the runs' in both.
#[test]
fn regions_and_runs_agree() {
    for seed in 0..3000 {
        let mut random = Random::new(seed);
        let places = random.count(1, 7);
        let roads = network::roads(&mut random, places);
        let least = random.pick(&[-1, -1, -9]);
        let mut number = || random.between(least, -least) as i32;
        let numbers: Vec<(i32, i32)> = (0..places).map(|_| (number(), number())).collect();
        // Line 2 and its not have every verdict at margin 0, line 3 an infinity.
        let sheet = left_and_right(Layout::Narrow, &roads, &numbers).line(3, 0, 0).truth();
        let far = roads.iter().map(|road| road.weight).max().unwrap_or(1).min(GREATEST / 4);
        let upper = random.field(0, 4 * far);
        let bounds = random.pick(&[(0, upper), (upper / 3, upper), (far, upper.max(far))]);
        let (left, right) = (random.field(0, 3), random.field(0, 3));
        let words = sheet.bounded(WITHOUT, left, right, bounds).bounded(WITH, left, right, bounds);
        assert_eq!(judged_words(&words.end()).number, 0, "seed {seed}");
    }
}
