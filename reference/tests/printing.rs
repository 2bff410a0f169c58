//! The printing program's limits.

mod common;

use common::*;
use reference::builder::SheetBuilder;
use reference::fast::Fast;
use reference::print::print;
use reference::words;

/// One signal at one place, so many samples and so many lines of truth.
fn truths(samples: u32, lines: usize) -> SheetBuilder {
    let numbers = vec![0; samples as usize];
    let sheet = SheetBuilder::new(1, 1, samples).samples(&numbers);
    (0..lines).fold(sheet, |sheet, _| sheet.truth())
}

#[test]
fn bytes_not_a_multiple_of_4_or_too_many() {
    let mut input = words::to_bytes(&EXAMPLE_A);
    input.push(0);
    assert_eq!(print::<Fast>(&input), "refused 16 0\n");
    assert_eq!(print::<Fast>(&[0xF0]), "refused 16 0\n");
    assert_eq!(print::<Fast>(&vec![0; 32_769]), "refused 16 0\n");
    assert_eq!(print::<Fast>(&vec![0; 32_772]), "refused 16 0\n");
    assert_eq!(print::<Fast>(&vec![0; 32_768]), "refused 2 0\n");
    assert_eq!(print::<Fast>(&[]), "refused 2 0\n");
}

#[test]
fn refusals_are_one_row() {
    let mut input = EXAMPLE_A;
    input[18] = 0xF000_0013;
    let text = print::<Fast>(&words::to_bytes(&input));
    assert_eq!(text, "refused 14 18\n");
}

/// 15 lines of 1,024 samples and one shortened by a bound need
/// 2 + 15 · 1,025 + 1 + 1,024 - bound words, 16,384 at bound 18.
#[test]
fn the_lent_answer_has_16_384_words() {
    let sheet = |bound: u32| {
        let words = truths(1024, 15).bounded(10, 0, 0, (0, bound)).end();
        print::<Fast>(&words::to_bytes(&words))
    };
    let text = sheet(18);
    assert!(text.starts_with("accepted 16384 0 16366\n0 0 yes +inf\n"));
    assert!(text.ends_with("15 1005 yes +inf\nend 16366\n"));
    assert_eq!(sheet(17), "refused 15 1044\n");
}

#[test]
fn infinities_are_named() {
    let sheet = truths(1, 1).line(3, 0, 0).end();
    let text = print::<Fast>(&words::to_bytes(&sheet));
    assert_eq!(text, "accepted 6 0 1\n0 0 yes +inf\n1 0 no -inf\nend 2\n");
}
