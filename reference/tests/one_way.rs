//! One-way roads: the worked sheets in both layouts, what a road's first word is
//! refused for, and surrounds on roads that run one way, worked out by hand.

mod common;

use common::*;
use reference::builder::SheetBuilder;
use reference::convert::laid_out;
use reference::distance::NO_DISTANCE;
use reference::fast::Fast;
use reference::judge::Outcome;
use reference::layout::Layout;
use reference::margin::Verdict;
use reference::meaning::Meaning;
use reference::print::print;
use reference::road::Road;
use reference::words;
use reference::worked::{ONE_WAY, ONE_WAY_BACK};

const WITHOUT: u32 = 7;
const WITH: u32 = 15;

/// The worked sheet with another first word of its road, in both layouts, which have
/// the same word.
fn with_road_word(word: u32) -> [Vec<u32>; 2] {
    let mut narrow = ONE_WAY.to_vec();
    narrow[1] = word;
    let mut wide = laid_out(&ONE_WAY, Layout::Wide).expect("a valid sheet");
    wide[2] = word;
    [narrow, wide]
}

/// The two verdicts of every line from the third on.
fn last_lines(words: &[u32]) -> Vec<Verdict> {
    let lines = judged_words(words).whole_answer().expect("an answer").lines;
    lines[2..].iter().flat_map(|line| line.verdicts.clone()).collect()
}

/// What both layouts must leave: distances row by row, lines 2 to 4, the rounds and
/// the yes count.
fn assert_leaves(word: u32, table: [u64; 4], lines: [Verdict; 6], rounds: u64, yes: u64) {
    for (words, answer) in with_road_word(word).iter().zip([17, 18]) {
        let left = judged_words(words);
        assert_eq!(distances(&left, 4), table);
        assert_eq!(last_lines(words), lines);
        let expected = Outcome { words: answer, rounds, yes, ..Outcome::default() };
        assert_eq!(outcome(&left), expected);
    }
}

#[test]
fn from_first_to_second() {
    let somewhere = [yes(6), NO_MINUS_INFINITY];
    let without = [yes(4), NO_MINUS_INFINITY];
    let lines = [somewhere, without, [yes(5), yes(6)]].concat();
    let lines = lines.try_into().expect("six verdicts");
    assert_leaves(0x2800_0001, [0, 3, NO_DISTANCE, 0], lines, 2, 8);
}

/// At 1 the region of 1 alone has place 0 around it, whose right is 3, and the island
/// of both has 5.
#[test]
fn from_second_to_first() {
    let somewhere = [NO_MINUS_INFINITY, yes(5)];
    let without = [NO_MINUS_INFINITY, yes(3)];
    let lines = [somewhere, without, [yes(5), yes(5)]].concat();
    let lines = lines.try_into().expect("six verdicts");
    assert_leaves(0x2400_0001, [0, NO_DISTANCE, 3, 0], lines, 2, 8);
    assert_eq!(with_road_word(0x2400_0001)[0], ONE_WAY_BACK);
}

/// Without the bits the answer is that of the base.
#[test]
fn both_ways() {
    let lines = [yes(6), yes(5), yes(4), yes(3), yes(5), yes(5)];
    assert_leaves(0x2000_0001, [0, 3, 3, 0], lines, 2, 10);
}

/// The file that hosts are tried on.
#[test]
fn the_worked_sheet_as_a_file() {
    let file = include_bytes!("../examples/one_way.sheet");
    assert_eq!(file[..], words::to_bytes(&ONE_WAY));
}

#[test]
fn the_worked_sheet_in_print() {
    let rows = "\
accepted 17 2 8
0 0 yes 5 yes 6
1 0 yes 3 yes 4
2 0 yes 6 no -inf
3 0 yes 4 no -inf
4 0 yes 5 yes 6
end 5
";
    let input = words::to_bytes(&ONE_WAY);
    assert_eq!([print::<Meaning>(&input), print::<Fast>(&input)], [rows; 2]);
}

#[test]
fn both_bits_are_number_4() {
    let [narrow, wide] = with_road_word(0x2C00_0001);
    assert_eq!((refused(&narrow), refused(&wide)), ((4, 1), (4, 2)));
}

/// Bits 25 down to the places, alone and beside one bit of direction or both.
#[test]
fn spare_bits_are_number_4() {
    for mark in [0, 0x0800_0000, 0x0400_0000, 0x0C00_0000] {
        for (bit, word) in (16..26).map(|bit| (bit, 0x2000_0001 | mark | 1 << bit)) {
            let [narrow, wide] = with_road_word(word);
            assert_eq!(refused(&narrow), (4, 1));
            // In a wide word bits 23..12 are the first place.
            let is_spare = bit >= 24 || mark == 0x0C00_0000;
            assert_eq!(refused(&wide), (if is_spare { 4 } else { 5 }, 2));
        }
    }
}

/// Three places, a road 0-1 first and then one that begins with this word; the other
/// layout has its own pairs.
fn after_road(layout: Layout, first: u32, second: u32) -> (u64, u64) {
    let words = SheetBuilder::laid_out(layout, 3, 1, 1)
        .copied(&[first, 0x3000_0001, second, 0x3000_0001])
        .samples(&[0; 3])
        .truth()
        .end();
    let left = judged_words(&words);
    (left.number, outcome(&left).place)
}

/// It comes before 5, 6 and 7.
#[test]
fn number_4_in_its_order() {
    assert_eq!(after_road(Layout::Narrow, 0x2C00_0100, 0), (4, 1));
    assert_eq!(after_road(Layout::Wide, 0x2C00_1000, 0), (4, 2));
    assert_eq!(after_road(Layout::Narrow, 0x2000_0102, 0x2C00_0001), (4, 3));
    assert_eq!(after_road(Layout::Wide, 0x2000_1002, 0x2C00_0001), (4, 4));
    assert_eq!(refused(&[0x1020_1001, 0x2C00_0001]), (4, 1));
    assert_eq!(refused(&[0x1020_1001, 0x2C00_0001, 0x3000_0000]), (4, 1));
}

#[test]
fn numbers_5_and_7_of_one_way_roads() {
    for mark in [0x0800_0000, 0x0400_0000] {
        assert_eq!(after_road(Layout::Narrow, 0x2000_0100 | mark, 0), (5, 1));
        assert_eq!(after_road(Layout::Narrow, 0x2000_0103 | mark, 0), (5, 1));
        assert_eq!(after_road(Layout::Wide, 0x2000_1001 | mark, 0), (5, 2));
        assert_eq!(refused(&[0x1020_1001, 0x2000_0001 | mark]), (7, 2));
        assert_eq!(refused(&[0x1020_1001, 0x2000_0001 | mark, 0x3000_0000]), (7, 2));
    }
}

/// The pair alone is looked at: it stands once whatever its direction, and a bit of
/// the direction puts no pair above another.
#[test]
fn number_6_looks_at_the_pair_alone() {
    let marks = [0, 0x0800_0000, 0x0400_0000];
    for (one, other) in marks.iter().flat_map(|&one| marks.map(|other| (one, other))) {
        let [narrow, wide] = [0x0102, 0x1002].map(|later| 0x2000_0000 | later);
        let first = 0x2000_0001;
        assert_eq!(after_road(Layout::Narrow, first | one, first | other), (6, 3));
        assert_eq!(after_road(Layout::Narrow, narrow | one, first | other), (6, 3));
        assert_eq!(after_road(Layout::Narrow, first | one, narrow | other), (0, 0));
        assert_eq!(after_road(Layout::Wide, wide | one, wide | other), (6, 4));
        assert_eq!(after_road(Layout::Wide, wide | one, first | other), (6, 4));
        assert_eq!(after_road(Layout::Wide, first | one, wide | other), (0, 0));
    }
}

/// The verdicts of line 0 surrounded by line 1, in both layouts, and the rounds.
fn surround(
    roads: &[Road],
    places: &[(i32, i32)],
    code: u32,
    bounds: (u32, u32),
) -> (Vec<Verdict>, u64) {
    let [one, other] = Layout::BOTH.map(|layout| {
        let words = left_and_right(layout, roads, places).bounded(code, 0, 1, bounds).end();
        (last_line(&words), outcome(&judged_words(&words)).rounds)
    });
    assert_eq!(one, other);
    one
}

/// Three places in a circle, 0 to 1 to 2 to 0, each road of weight 1.
fn circle() -> [Road; 3] {
    [Road::one_way(0, 1, 1), Road::one_way(2, 0, 1), Road::one_way(1, 2, 1)]
}

/// From 0 the regions are 0, with 1 around it, and 0 and 1, with 2 around. From 1 they
/// are 1 (right 3 around) and 1 and 2 (right 1), and from 2 they are 2 (right 1) and 2
/// and 0 (right 2). All three are an island, over which the steps are 7 6 5, then 6 5
/// 5, then 5 5 5.
#[test]
fn a_circle_one_way_round() {
    let places = [(7, 1), (6, 2), (5, 3)];
    let without = surround(&circle(), &places, WITHOUT, (0, 9));
    assert_eq!(without, (vec![yes(3), yes(3), yes(2)], 3));
    let with = surround(&circle(), &places, WITH, (0, 9));
    assert_eq!(with, (vec![yes(5); 3], 3));
    // At distance 2 alone: what is around must be the place before.
    let far = surround(&circle(), &places, WITHOUT, (2, 2));
    assert_eq!(far.0, [yes(3), yes(1), yes(2)]);
}

/// Roads lead from 0 to 1 and on to 2, and back from 2 none does: from 2 nothing is
/// around, from 1 only 2 is, and 0 is no part of their regions.
#[test]
fn a_path_one_way() {
    let roads = [Road::one_way(0, 1, 1), Road::one_way(1, 2, 1)];
    let places = [(4, 9), (3, 2), (8, 6)];
    let without = surround(&roads, &places, WITHOUT, (0, 9));
    assert_eq!(without.0, [yes(3), yes(3), NO_MINUS_INFINITY]);
    let with = surround(&roads, &places, WITH, (0, 9));
    assert_eq!(with.0, [yes(3), yes(3), yes(8)]);
}

/// What leads into a region is not around it: all roads lead to place 0.
#[test]
fn a_star_towards_its_middle() {
    let roads = [1, 2, 3].map(|place| Road::one_way(place, 0, 2));
    let places = [(5, -1), (6, -2), (7, -3), (8, -4)];
    let with = surround(&roads, &places, WITH, (0, 9));
    assert_eq!(with.0, [yes(5); 4]);
    let without = surround(&roads, &places, WITHOUT, (0, 9));
    assert_eq!(without, (vec![NO_MINUS_INFINITY, no(-1), no(-1), no(-1)], 2));
}

/// Somewhere and everywhere go by the distance from the centre: 0 reaches 2 in 2, and
/// 2 reaches 0 in 1.
#[test]
fn ranges_are_measured_from_the_centre() {
    let places = [(1, 0), (2, 0), (4, 0)];
    let ranged = |code: u32, bounds: (u32, u32)| {
        let sheet = left_and_right(Layout::Narrow, &circle(), &places);
        last_line(&sheet.bounded(code, 0, 0, bounds).end())
    };
    assert_eq!(ranged(6, (1, 1)), [yes(2), yes(4), yes(1)]);
    assert_eq!(ranged(6, (2, 2)), [yes(4), yes(1), yes(2)]);
    assert_eq!(ranged(11, (1, 2)), [yes(2), yes(1), yes(1)]);
    assert_eq!(ranged(11, (3, 9)), [YES_PLUS_INFINITY; 3]);
}
