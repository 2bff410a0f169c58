//! The settled examples of the scope.

mod common;

use common::*;
use reference::builder::SheetBuilder;
use reference::fast::Fast;
use reference::generate::Case;
use reference::judge::Outcome;
use reference::meaning::Meaning;
use reference::print::print;
use reference::words;

const TEXT_A: &str = "\
accepted 20 1 11
0 0 yes 5 no -2
0 1 yes 1 yes 4
1 0 yes 5 yes 4
2 0 no -2 yes 5
2 1 yes 4 yes 1
3 0 no -2 yes 5
3 1 yes 4 yes 1
end 7
";

/// The answer to example A, written out by hand from its text.
const ANSWER_A: [u32; 20] = [
    0xD0204002, 0xE0000002, 0x90000005, 0xAFFFFFFE, 0x90000001, 0x90000004, 0xE0000001, 0x90000005,
    0x90000004, 0xE0000002, 0xAFFFFFFE, 0x90000005, 0x90000004, 0x90000001, 0xE0000002, 0xAFFFFFFE,
    0x90000005, 0x90000004, 0x90000001, 0xF0000013,
];

#[test]
fn a_prints_its_rows() {
    let input = words::to_bytes(&EXAMPLE_A);
    assert_eq!(print::<Meaning>(&input), TEXT_A);
    assert_eq!(print::<Fast>(&input), TEXT_A);
}

#[test]
fn a_leaves_answer_distances_and_result() {
    let left = judged(&Case::of(&EXAMPLE_A, 25));
    assert_eq!(left.number, 0);
    assert_eq!(answer_words(&left)[..20], ANSWER_A);
    assert_eq!(answer_words(&left)[20..], [0; 5]);
    let distances = distances(&left, 4);
    assert_eq!(distances, [0, 3, 3, 0]);
    assert!(left.distances[32..].iter().all(|&byte| byte == 0));
    let mut result = [0; 40];
    (result[16], result[24], result[32]) = (20, 1, 11);
    assert_eq!(left.result, result);
}

#[test]
fn a_with_19_answer_words_is_refused() {
    let left = judged(&Case::of(&EXAMPLE_A, 19));
    assert_refused(&left);
    assert_eq!((left.number, outcome(&left).place), (15, 19));
    assert_eq!(judged(&Case::of(&EXAMPLE_A, 20)).number, 0);
}

/// Sample 7 by true, as code 7 or 15 has it.
fn example_b(code: u32) -> Vec<u32> {
    let sheet = SheetBuilder::new(1, 1, 1).samples(&[7]).at_least(0, 0);
    sheet.truth().bounded(code, 0, 1, (0, 0)).end()
}

/// True by true.
fn example_c(code: u32) -> Vec<u32> {
    let sheet = SheetBuilder::new(1, 1, 1).samples(&[7]).truth();
    sheet.bounded(code, 0, 0, (0, 0)).end()
}

/// "Examples B and C become no at minus infinity", and no run is made.
#[test]
fn b_and_c_one_place_is_not_surrounded() {
    for words in [example_b(7), example_c(7)] {
        assert_eq!(last_line(&words), [NO_MINUS_INFINITY]);
        assert_eq!(outcome(&judged_words(&words)).rounds, 0);
    }
}

/// "The former reading moves to code 15."
#[test]
fn b_and_c_one_place_is_an_island() {
    assert_eq!(last_line(&example_b(15)), [yes(7)]);
    assert_eq!(last_line(&example_c(15)), [YES_PLUS_INFINITY]);
    for words in [example_b(15), example_c(15)] {
        assert_eq!(outcome(&judged_words(&words)).rounds, 1);
    }
}

fn two_unconnected() -> SheetBuilder {
    let sheet = SheetBuilder::new(2, 1, 1).samples(&[-1, 8]);
    sheet.at_least(0, 0)
}

#[test]
fn d_somewhere_here_only() {
    let sheet = two_unconnected().bounded(6, 0, 0, (0, 9));
    assert_eq!(last_line(&sheet.end()), [no(-1), yes(8)]);
}

#[test]
fn e_somewhere_of_nothing() {
    let sheet = two_unconnected().bounded(6, 0, 0, (1, 9));
    assert_eq!(last_line(&sheet.end()), [NO_MINUS_INFINITY; 2]);
}

#[test]
fn f_everywhere_of_nothing() {
    let sheet = two_unconnected().bounded(11, 0, 0, (1, 9));
    assert_eq!(last_line(&sheet.end()), [YES_PLUS_INFINITY; 2]);
}

#[test]
fn g_zero_is_yes_and_its_not_is_no() {
    let atom = SheetBuilder::new(1, 1, 1).samples(&[5]).at_least(0, 5);
    assert_eq!(last_line(&atom.clone().end()), [yes(0)]);
    assert_eq!(last_line(&atom.clone().line(3, 0, 0).end()), [no(0)]);
    let text = print::<Fast>(&words::to_bytes(&atom.line(3, 0, 0).end()));
    assert_eq!(text, "accepted 6 0 1\n0 0 yes 0\n1 0 no 0\nend 2\n");
}

#[test]
fn h_takes_three_rounds() {
    for code in [7, 15] {
        let words = row_of_three([4, 4, 4], [9, -3, 9]).bounded(code, 0, 1, (1, 1)).end();
        assert_eq!(last_line(&words)[0], no(-3));
        assert_eq!(outcome(&judged_words(&words)).rounds, 3);
    }
}

#[test]
fn i_the_least_margin() {
    let sheet = SheetBuilder::new(1, 1, 1).samples(&[-67_108_864]);
    let words = sheet.at_least(0, 67_108_863).end();
    assert_eq!(last_line(&words), [no(-134_217_727)]);
    assert_eq!(answer_words(&judged_words(&words))[2], 0xA800_0001);
}

#[test]
fn j_the_shortest_path() {
    let sheet = SheetBuilder::new(3, 1, 1).road(0, 1, 5).road(0, 2, 1);
    let left = judged_words(&sheet.road(1, 2, 1).samples(&[0; 3]).truth().end());
    let distances = distances(&left, 10);
    assert_eq!(distances, [0, 2, 1, 2, 0, 1, 1, 1, 0, 0]);
}

#[test]
fn k_the_right_signal_is_masked_by_both_bounds() {
    for code in [7, 15] {
        let sheet = row_of_three([4, 1, 1], [9, 9, 9]).bounded(code, 0, 1, (2, 2));
        assert_eq!(last_line(&sheet.end())[0], yes(1));
    }
}

fn until_with_upper_two(samples: u32) -> Vec<u32> {
    let sheet = SheetBuilder::new(1, 1, samples);
    let sheet = sheet.samples(&vec![1; samples as usize]).at_least(0, 0);
    sheet.bounded(5, 0, 0, (0, 2)).end()
}

#[test]
fn an_upper_bound_shortens_until() {
    assert_eq!(last_line(&until_with_upper_two(3)), [yes(1)]);
    assert_eq!(refused(&until_with_upper_two(2)), (13, 5));
}

#[test]
fn places_and_samples_at_their_limits() {
    let sheet = |places: u32, samples: u32| {
        let numbers = vec![0; (places * samples) as usize];
        let sheet = SheetBuilder::new(places, 1, samples).samples(&numbers);
        sheet.truth().end()
    };
    let accepted = |words: u64, yes: u64| Outcome { words, yes, ..Outcome::default() };
    assert_eq!(outcome(&judged_words(&sheet(64, 1))), accepted(67, 64));
    assert_eq!(refused(&sheet(65, 1)), (3, 0));
    assert_eq!(outcome(&judged_words(&sheet(1, 1024))), accepted(1027, 1024));
    assert_eq!(refused(&sheet(1, 1025)), (3, 0));
}
