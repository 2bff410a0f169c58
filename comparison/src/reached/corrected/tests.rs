//! What calls show that correct a sheet.

use super::*;
use crate::reached::called::number_label;
use reference::builder::SheetBuilder;
use reference::correct::{self, Correction};
use reference::tool::Outcome;
use reference::worked::{CORRECTIONS_OF_A, WIDE_A};
use std::collections::BTreeSet;

/// Two places, one signal, two samples of 1, and no road.
fn sheet() -> Vec<u32> {
    SheetBuilder::new(2, 1, 2).samples(&[1; 4]).truth().end()
}

/// What is shown by a sheet and a list with so many words of room, and this number and
/// place given back, beside the number.
#[track_caller]
fn assert_shown(sheet: &[u32], list: &[u32], room: usize, told: (u64, u64), texts: &[&str]) {
    let given = Given::of(&[sheet, list], room);
    let (number, place) = told;
    let result = Outcome { number, place, words: 0 }.to_bytes().to_vec();
    let found = shown(&given, &Left { number, output: Vec::new(), result });
    let expected = texts.iter().map(|text| label(NAME, number, text));
    let expected: BTreeSet<String> = expected.chain([number_label(NAME, number)]).collect();
    assert_eq!(found.into_iter().collect::<BTreeSet<_>>(), expected);
}

/// A correction of the sheet's second sample, at place 1.
fn sent(revision: u32, value: i32) -> Correction {
    Correction { revision, aim: Aim { signal: 0, time: 0, place: 1 }, value }
}

/// Corrections of that sample in these revisions, each with a value of its own, and as
/// many words of room as are needed.
#[track_caller]
fn assert_revisions(revisions: &[u32], texts: &[&str]) {
    let sent: Vec<Correction> = revisions.iter().map(|&r| sent(r, 1 + r as i32)).collect();
    let texts = [&["a narrow sheet", "room exact"], texts].concat();
    assert_shown(&sheet(), &correct::list(&sent), sheet().len(), (0, 0), &texts);
}

#[test]
fn labels_are_told_once() {
    let labels: Vec<String> = labels().collect();
    assert_eq!(labels.iter().collect::<BTreeSet<_>>().len(), labels.len());
}

#[test]
fn orders_of_revisions() {
    assert_revisions(&[2], &["one correction"]);
    assert_revisions(&[1], &["one correction", "revision 1 alone"]);
    assert_revisions(&[2, 3], &["the highest revision last"]);
    assert_revisions(&[3, 2], &["the highest revision first"]);
    assert_revisions(&[3, 4, 2], &["the highest revision between others"]);
    let up = ["the highest revision last", "revisions below and above 128, up", "revision 255"];
    assert_revisions(&[127, 255], &up);
    let down = ["the highest revision first", "revisions below and above 128, down"];
    assert_revisions(&[128, 127], &down);
}

#[test]
fn the_same_sent_again() {
    assert_revisions(&[2, 2], &["the same sent again next to it"]);
    let texts = ["the same sent again, others between", "the highest revision between others"];
    assert_revisions(&[2, 3, 2], &texts);
    let texts = [
        "the same sent again next to it",
        "the same sent again below the highest",
        "the highest revision first",
    ];
    assert_revisions(&[3, 2, 2], &texts);
}

#[test]
fn what_is_aimed_at() {
    let at = |time: u32, place: u32, revision: u32, value: i32| {
        Correction { revision, aim: Aim { signal: 0, time, place }, value }.words()
    };
    let (sheet, narrow) = (sheet(), "a narrow sheet");
    let texts = [narrow, "room exact", "one correction", "the first sample", "nothing changes"];
    assert_shown(&sheet, &at(0, 0, 2, 1), sheet.len(), (0, 0), &texts);
    let texts = [narrow, "a word more of room", "one correction", "the last sample"];
    assert_shown(&sheet, &at(1, 1, 2, 5), sheet.len() + 1, (0, 0), &texts);
    let all = [at(0, 0, 2, 5), at(0, 1, 2, 5), at(1, 0, 2, 5), at(1, 1, 2, 5)].concat();
    let texts =
        [narrow, "1,000 words more of room", "every sample", "the first sample", "the last sample"];
    assert_shown(&sheet, &all, sheet.len() + 1_000, (0, 0), &texts);
    let texts = ["a wide sheet", "roads one way", "room exact", "no correction"];
    let one_way = SheetBuilder::wide(2, 1, 1).one_way(1, 0, 1).samples(&[0; 2]).truth().end();
    assert_shown(&one_way, &[], one_way.len(), (0, 0), &texts);
}

#[test]
fn what_has_no_room() {
    let (sheet, list) = (&WIDE_A[..], &CORRECTIONS_OF_A[..]);
    let told = (15, 20);
    let texts = ["a wide sheet", "a word short", "no fewer words than corrections"];
    assert_shown(sheet, list, 19, told, &texts);
    let texts = ["a wide sheet", "some room", "fewer words than corrections"];
    assert_shown(sheet, list, 2, told, &texts);
    assert_shown(sheet, list, 0, told, &["a wide sheet", "no room"]);
    assert_shown(sheet, &[], 3, told, &["a wide sheet", "some room", "no correction"]);
}

#[test]
fn what_is_faulty() {
    let (sheet, list) = (sheet(), correct::list(&[sent(1, 2), sent(1, 3), sent(2, 1)]));
    let mut faulty = list.clone();
    faulty[7] = 0xC000_0002;
    let texts = [
        "a narrow sheet",
        "enough room",
        "the last of more",
        "a clash before it",
        "second word, a place too many, a narrow sheet",
    ];
    assert_shown(&sheet, &faulty, sheet.len(), (19, 7), &texts);
    faulty[2] = 0;
    faulty.pop();
    let texts = [
        "a narrow sheet",
        "a short output besides",
        "the first correction",
        "a clash behind it",
        "missing words besides",
        "third word, of kind 0, a narrow sheet",
    ];
    assert_shown(&sheet, &faulty, 1, (19, 2), &texts);
    let texts =
        ["a narrow sheet", "no room", "one word missing, a narrow sheet", "a clash before it"];
    assert_shown(&sheet, &list[..8], 0, (19, 8), &texts);
}

#[test]
fn what_clashes() {
    let sheet = sheet();
    let shown = |sent: &[Correction], later: u64, texts: &[&str]| {
        let texts = [&["a narrow sheet", "enough room"], texts].concat();
        assert_shown(&sheet, &correct::list(sent), sheet.len(), (20, 3 * later), &texts);
    };
    let next = "next to each other";
    shown(
        &[sent(200, 2), sent(200, 3)],
        1,
        &["at the highest revision", next, "a revision above 127"],
    );
    let texts = ["below the highest, which stands first", next];
    shown(&[sent(9, 1), sent(7, 2), sent(7, 3)], 2, &texts);
    let texts = ["below the highest, which stands behind", next, "another clash behind it"];
    shown(&[sent(7, 2), sent(7, 3), sent(9, 1), sent(9, 2)], 1, &texts);
    let texts = [
        "below the highest, which stands between",
        "others between",
        "the same sent again between",
    ];
    shown(&[sent(7, 2), sent(9, 1), sent(7, 2), sent(7, 3)], 3, &texts);
}

/// Of more corrections than there are words in an output that has some.
#[test]
fn what_has_no_word_for_each() {
    let sheet = SheetBuilder::new(2, 1, 40).samples(&[1; 80]).truth().end();
    let mut list = vec![sent(1, 2); sheet.len() + 2];
    let right = ["a narrow sheet", "room exact", "more corrections than words"];
    let again = ["the same sent again next to it", "20 revisions of a sample"];
    let none_for_each = "more corrections than words lent, which are 64 or more";
    let texts = [&right[..], &again, &[none_for_each]].concat();
    assert_shown(&sheet, &correct::list(&list), sheet.len(), (0, 0), &texts);
    let last = list.len() as u64 - 1;
    *list.last_mut().expect("a correction") = sent(1, 3);
    let clash = ["a narrow sheet", "enough room", "at the highest revision", "others between"];
    let far = "farther apart than words are lent, which are 64 or more";
    let texts = [&clash[..], &["the same sent again between", far]].concat();
    assert_shown(&sheet, &correct::list(&list), sheet.len(), (20, 3 * last), &texts);
    let earlier = 3 * (last - 1);
    let end = list.len() - 1;
    list[end - 2..end].copy_from_slice(&[sent(2, 5), sent(2, 6)]);
    let clash = ["a narrow sheet", "enough room", "at the highest revision", "next to each other"];
    let before = "another behind it that begins before it, and no word for each correction";
    let texts = [&clash[..], &["another clash behind it", before]].concat();
    assert_shown(&sheet, &correct::list(&list), sheet.len(), (20, earlier), &texts);
}

#[test]
fn what_is_wrong_with_the_sheet() {
    let clashing = correct::list(&[sent(1, 2), sent(1, 3)]);
    let texts = ["a narrow sheet", "some room", "a clash besides"];
    assert_shown(&sheet()[..5], &clashing, 9, (10, 5), &texts);
    let texts =
        ["a narrow sheet", "no room", "no correction", "an ill-formed list besides", "no word"];
    assert_shown(&[], &[7], 0, (2, 0), &texts);
}

/// The list alone has a length that cannot be, and then holds nothing.
#[test]
fn what_has_wrong_lengths() {
    let inputs = vec![words::to_bytes(&sheet()), vec![0; 5]];
    let given = Given { inputs, output: 4, result: 24 };
    let left = Left { number: 16, output: Vec::new(), result: Vec::new() };
    let texts = ["the list alone", "a short output besides"];
    let expected = texts.map(|text| label(NAME, 16, text));
    assert_eq!(shown(&given, &left), [&[number_label(NAME, 16)], &expected[..]].concat());
}
