//! First samples and lengths: where lines begin and end, what they read there,
//! and refusal 13 where nothing is left.

mod common;

use common::*;
use reference::builder::SheetBuilder;
use reference::margin::{Margin, Verdict};

const GREATEST: u32 = (1 << 28) - 1;

/// One place, numbers 0, 10, 20 .. at so many samples; line 0 is their atom.
fn rising(samples: u32) -> SheetBuilder {
    let numbers: Vec<i32> = (0..samples as i32).map(|sample| 10 * sample).collect();
    SheetBuilder::new(1, 1, samples).samples(&numbers).at_least(0, 0)
}

/// The first sample and the length of every line of an accepted sheet, as its
/// kind 14 words say them.
fn extents(sheet: SheetBuilder) -> Vec<(u32, u32)> {
    let words = answer_words(&judged_words(&sheet.end()));
    let lines = words.iter().filter(|&&word| word >> 28 == 14);
    lines.map(|word| (word >> 12 & 0xFFFF, word & 0xFFF)).collect()
}

/// The last line: its first sample, and its margins, all of them of a yes.
fn margins(sheet: SheetBuilder) -> (usize, Vec<i64>) {
    let line = last_of(&sheet.end());
    let margin = |verdict: &Verdict| match verdict {
        Verdict { yes: true, margin: Margin::Finite(number) } => *number,
        other => panic!("{other:?}"),
    };
    (line.first, line.verdicts.iter().map(margin).collect())
}

/// Line 1 begins late, at 3; line 2 ends early, before 8.
fn late_and_early() -> SheetBuilder {
    rising(10).bounded(13, 0, 0, (0, 3)).bounded(9, 0, 0, (0, 2))
}

#[test]
fn every_code_has_its_extent() {
    let sheet = late_and_early()
        .line(4, 1, 2)
        .line(8, 2, 1)
        .bounded(5, 1, 2, (0, 1))
        .bounded(12, 1, 2, (1, 2))
        .line(3, 1, 0)
        .bounded(6, 1, 0, (0, 5))
        .bounded(11, 1, 0, (0, 5))
        .bounded(7, 1, 2, (0, 5))
        .bounded(15, 1, 2, (0, 5))
        .bounded(10, 1, 0, (0, 2))
        .bounded(14, 2, 0, (0, 1))
        .truth();
    let of_first_three = [(0, 10), (3, 7), (0, 8)];
    let joined = [(3, 5), (3, 5), (3, 4), (5, 3)];
    let alone = [(3, 7), (3, 7), (3, 7)];
    let last = [(3, 5), (3, 5), (3, 5), (1, 7), (0, 10)];
    assert_eq!(extents(sheet), [&of_first_three[..], &joined, &alone, &last].concat());
}

#[test]
fn a_line_can_begin_at_the_last_sample() {
    let sheet = rising(1024).bounded(13, 0, 0, (1023, 1023));
    assert_eq!(extents(sheet.clone()), [(0, 1024), (1023, 1)]);
    assert_eq!(answer_words(&judged_words(&sheet.end()))[1026], 0xE03F_F001);
}

/// Once 2..2 says at t what its operand said at t - 2, and so on.
#[test]
fn late_lines_are_read_at_the_recordings_samples() {
    let late = || rising(6).bounded(13, 0, 0, (2, 2));
    assert_eq!(margins(late()), (2, vec![0, 10, 20, 30]));
    assert_eq!(margins(late().line(4, 1, 0)), (2, vec![0, 10, 20, 30]));
    assert_eq!(margins(late().line(4, 0, 1)), (2, vec![0, 10, 20, 30]));
    assert_eq!(margins(late().line(8, 0, 1)), (2, vec![20, 30, 40, 50]));
    assert_eq!(margins(late().bounded(9, 1, 0, (2, 2))), (2, vec![20, 30]));
    assert_eq!(margins(late().bounded(10, 1, 0, (1, 2))), (2, vec![10, 20]));
    assert_eq!(margins(late().bounded(14, 1, 0, (1, 1))), (3, vec![0, 10, 20]));
    assert_eq!(margins(late().bounded(5, 0, 1, (1, 1))), (2, vec![10, 20, 30]));
    assert_eq!(margins(late().bounded(12, 0, 1, (1, 1))), (3, vec![0, 10, 20]));
    assert_eq!(margins(late().bounded(12, 1, 0, (1, 1))), (3, vec![0, 10, 20]));
    assert_eq!(margins(late().bounded(6, 1, 0, (0, 0))), (2, vec![0, 10, 20, 30]));
    assert_eq!(margins(late().bounded(11, 1, 0, (0, 0))), (2, vec![0, 10, 20, 30]));
    assert_eq!(margins(late().bounded(15, 1, 0, (0, 0))), (2, vec![0, 10, 20, 30]));
}

#[test]
fn looking_back_over_a_line_that_ends_early() {
    let early = || rising(6).bounded(9, 0, 0, (2, 2));
    assert_eq!(margins(early()), (0, vec![20, 30, 40, 50]));
    assert_eq!(margins(early().bounded(13, 1, 0, (2, 2))), (2, vec![20, 30]));
    assert_eq!(margins(early().bounded(12, 0, 1, (1, 2))), (2, vec![10, 20]));
}

/// Of two late operands the later counts: at t they say what was at t - 1 and
/// at t - 2.
#[test]
fn the_later_first_sample_counts() {
    let both = || rising(5).bounded(13, 0, 0, (1, 1)).bounded(13, 0, 0, (2, 2));
    assert_eq!(margins(both().line(8, 1, 2)), (2, vec![10, 20, 30]));
    assert_eq!(margins(both().line(8, 2, 1)), (2, vec![10, 20, 30]));
    assert_eq!(margins(both().line(4, 1, 2)), (2, vec![0, 10, 20]));
}

/// Example H a sample later: what its surround reads at sample 1 is what was
/// recorded at sample 0, and the rounds are those of that sample.
#[test]
fn a_surround_of_late_lines() {
    let late = SheetBuilder::new(3, 2, 2)
        .road(0, 1, 1)
        .road(1, 2, 1)
        .samples(&[4, 9, 4, -3, 4, 9, 1, 1, 1, 1, 1, 1])
        .at_least(0, 0)
        .at_least(1, 0)
        .bounded(13, 0, 0, (1, 1))
        .bounded(14, 1, 0, (1, 1));
    for code in [7, 15] {
        let words = late.clone().bounded(code, 2, 3, (1, 1)).end();
        let line = last_of(&words);
        assert_eq!((line.first, line.verdicts.len(), line.verdicts[0]), (1, 3, no(-3)));
        assert_eq!(outcome(&judged_words(&words)).rounds, 3);
    }
}

/// Line 1 begins at sample 1, line 2 ends before it. Line 3 will stand at word
/// 11.
fn apart() -> SheetBuilder {
    rising(2).bounded(13, 0, 0, (0, 1)).bounded(9, 0, 0, (0, 1))
}

#[test]
fn number_13_operands_without_a_common_sample() {
    let words = [
        0x10101002, 0x40000000, 0x40000000, 0x50100000, 0x80000000, 0x50D00000, 0x60000000,
        0x70000001, 0x50900000, 0x60000000, 0x70000001, 0x50400402, 0xF000000C,
    ];
    assert_eq!(refused(&words), (13, 11));
    for (left, right) in [(1, 2), (2, 1)] {
        for code in [4, 8] {
            assert_eq!(refused(&apart().line(code, left, right).end()), (13, 11));
        }
        for code in [5, 7, 12, 15] {
            for bounds in [(0, 0), (0, 1), (0, GREATEST), (GREATEST, GREATEST)] {
                let words = apart().bounded(code, left, right, bounds).end();
                assert_eq!(refused(&words), (13, 11));
            }
        }
    }
}

#[test]
fn one_common_sample_is_enough() {
    let sheet = || rising(3).bounded(13, 0, 0, (0, 1)).bounded(9, 0, 0, (0, 1));
    for (left, right) in [(1, 2), (2, 1)] {
        for code in [4, 8] {
            assert_eq!(extents(sheet().line(code, left, right))[3], (1, 1));
        }
        for code in [5, 7, 12, 15] {
            assert_eq!(extents(sheet().bounded(code, left, right, (0, 0)))[3], (1, 1));
        }
        for code in [5, 12] {
            let words = sheet().bounded(code, left, right, (0, 1)).end();
            assert_eq!(refused(&words), (13, 12));
        }
    }
}

/// Operands further apart than next to each other.
#[test]
fn number_13_operands_far_apart() {
    let sheet = rising(1024).bounded(14, 0, 0, (0, 1023)).bounded(10, 0, 0, (0, 1023));
    let place = 1 + 1024 + 2 + 3 + 3;
    assert_eq!(refused(&sheet.clone().line(4, 1, 2).end()), (13, place));
    assert_eq!(refused(&sheet.bounded(12, 2, 1, (0, 0)).end()), (13, place));
}

#[test]
fn number_13_nothing_left_of_a_late_line() {
    // Line 1 begins at 3 and has 7 samples.
    for code in [5, 9, 10, 12, 13, 14] {
        let right = if matches!(code, 5 | 12) { 1 } else { 0 };
        let line = |upper| late_and_early().bounded(code, 1, right, (0, upper));
        assert_eq!(extents(line(6))[3].1, 1);
        for upper in [7, 8, 1023, GREATEST] {
            assert_eq!(refused(&line(upper).end()), (13, 19));
        }
    }
}

/// The parameters come first: what is wrong with them is 12.
#[test]
fn number_12_comes_before_operands_apart() {
    for code in [5, 7, 12, 15] {
        assert_eq!(refused(&apart().line(code, 1, 2).end()), (12, 12));
        assert_eq!(refused(&apart().bounded(code, 1, 2, (1, 0)).end()), (12, 13));
    }
}

#[test]
fn number_13_comes_before_what_follows_operands_apart() {
    let line = apart().line(4, 1, 2);
    assert_eq!(refused(&line.clone().words()), (13, 11));
    assert_eq!(refused(&line.line(16, 0, 0).end()), (13, 11));
}
