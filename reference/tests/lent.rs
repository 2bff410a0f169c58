//! What is lent: refusals 1, 15 and 16, and every byte set.

mod common;

use common::*;
use reference::generate::Case;
use reference::words;

/// Example A with so many bytes lent.
fn lent(distances: usize, answer: usize, result: usize) -> Case {
    Case { sheet: words::to_bytes(&EXAMPLE_A), distances, answer, result }
}

fn number_and_place(case: &Case) -> (u64, u64) {
    let left = judged(case);
    assert_refused(&left);
    (left.number, outcome(&left).place)
}

#[test]
fn number_1_under_4096_distances() {
    for entries in [0, 1, 4, 4095] {
        assert_eq!(number_and_place(&lent(entries * 8, 80, 40)), (1, 0));
    }
    // Before any word is read, and before the answer is measured.
    let mut case = lent(4095 * 8, 0, 40);
    assert_eq!(number_and_place(&case), (1, 0));
    case.sheet.clear();
    assert_eq!(number_and_place(&case), (1, 0));
    assert_eq!(judged(&lent(4096 * 8, 80, 40)).number, 0);
}

#[test]
fn a_longer_distance_table_ends_in_zeros() {
    let left = judged(&lent(5000 * 8, 80, 40));
    assert_eq!(left.number, 0);
    assert_eq!(left.distance(1), Some(3));
    assert!(left.distances[32..].iter().all(|&byte| byte == 0));
}

#[test]
fn number_15_is_exact() {
    for words in 0..20 {
        assert_eq!(number_and_place(&lent(4096 * 8, words * 4, 40)), (15, 19));
    }
    for words in [20, 21, 16_384] {
        assert_eq!(judged(&lent(4096 * 8, words * 4, 40)).number, 0);
    }
}

#[test]
fn number_15_comes_after_the_sheet() {
    let mut case = lent(4096 * 8, 0, 40);
    case.sheet.extend([0; 4]);
    assert_eq!(number_and_place(&case), (14, 19));
}

#[test]
fn number_16_wrong_lengths() {
    for odd in 1..4 {
        assert_eq!(number_and_place(&lent(4096 * 8, 80 + odd, 40)), (16, 0));
        let mut case = lent(4096 * 8, 80, 40);
        case.sheet.truncate(19 * 4 - odd);
        assert_eq!(number_and_place(&case), (16, 0));
    }
    for odd in 1..8 {
        assert_eq!(number_and_place(&lent(4096 * 8 + odd, 80, 40)), (16, 0));
        assert_eq!(number_and_place(&lent(odd, 80, 40)), (16, 0));
    }
}

#[test]
fn number_16_without_a_result_of_40() {
    for result in [0, 1, 8, 39, 41, 48, 80] {
        let left = judged(&lent(4096 * 8, 80, result));
        assert_refused(&left);
        assert_eq!(left.number, 16);
        assert!(left.result.iter().all(|&byte| byte == 0));
    }
}

#[test]
fn number_16_comes_before_all_else() {
    let mut case = lent(7, 0, 40);
    case.sheet.clear();
    assert_eq!(number_and_place(&case), (16, 0));
    case.distances = 0;
    case.answer = 2;
    assert_eq!(number_and_place(&case), (16, 0));
    case.answer = 0;
    assert_eq!(number_and_place(&case), (1, 0));
}
