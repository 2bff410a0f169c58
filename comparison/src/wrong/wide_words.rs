//! Engines that are right on narrow sheets, and read words of wide ones wrongly.

use super::caught;
use super::rereads::{reread_roads, Rereads};
use crate::Engine;
use reference::layout::Layout;
use reference::road::BOTH_MARKS;
use reference::words::{self, kinds};

/// An engine that reads other words than there are, where a sheet is wide.
fn rereads(reread: fn(&mut [u32])) -> impl Engine {
    Rereads(move |words: &mut [u32]| {
        if Layout::of(words).is_wide() {
            reread(words);
        }
    })
}

#[test]
fn places_of_roads_read_by_8_bits() {
    let engine = rereads(|words| reread_roads(words, |word| word & 0xFF0F_F0FF));
    assert!(caught(&engine).is_some());
}

#[test]
fn places_of_roads_read_by_10_bits() {
    let engine = rereads(|words| reread_roads(words, |word| word & 0xFF3F_F3FF));
    assert!(caught(&engine).is_some());
}

#[test]
fn roads_read_as_narrow_ones() {
    let engine = rereads(|words| {
        reread_roads(words, |word| {
            let pair = Layout::Narrow.pair(word);
            Layout::Wide.pair_word(pair.first as u32, pair.second as u32) | word & BOTH_MARKS
        })
    });
    assert!(caught(&engine).is_some());
}

#[test]
fn spare_bits_of_a_road_passed_over() {
    let engine = rereads(|words| reread_roads(words, |word| word & 0xFCFF_FFFF));
    assert!(caught(&engine).is_some());
}

#[test]
fn spare_bits_of_the_first_word_passed_over() {
    assert!(caught(&rereads(|words| words[0] &= 0xF000_FFFF)).is_some());
}

#[test]
fn places_in_the_head_passed_over() {
    let reread = |words: &mut [u32]| {
        if let Some(head) = words.get_mut(1).filter(|head| words::kind(**head) == kinds::HEAD) {
            *head &= 0xF00F_FFFF;
        }
    };
    assert!(caught(&rereads(reread)).is_some());
}
