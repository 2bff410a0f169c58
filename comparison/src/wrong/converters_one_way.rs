//! Converters that do not carry over which ways roads run.

use super::converters::{assert_caught, assert_caught_where_changed};
use super::rereads::reread_roads;
use reference::convert::laid_out;
use reference::layout::Layout;
use reference::road::{Direction, BOTH_MARKS};
use reference::words::{self, kinds};

#[test]
fn directions_dropped() {
    assert_caught_where_changed(|_, written| reread_roads(written, |word| word & !BOTH_MARKS));
}

#[test]
fn one_direction_dropped() {
    for direction in [Direction::FirstToSecond, Direction::SecondToFirst] {
        assert_caught_where_changed(|_, written| {
            reread_roads(written, |word| word & !direction.mark());
        });
    }
}

#[test]
fn directions_exchanged() {
    assert_caught_where_changed(|_, written| {
        reread_roads(written, |word| match Direction::told(word) {
            Some(direction) => word & !BOTH_MARKS | direction.turned().mark(),
            None => word,
        });
    });
}

/// Right above the places, as if they were a part of the pair.
#[test]
fn directions_moved_with_the_places() {
    assert_caught_where_changed(|_, written| {
        let top = 2 * Layout::of(written).place_bits();
        reread_roads(written, |word| word & !BOTH_MARKS | (word & BOTH_MARKS) >> 26 << top);
    });
}

/// Of the last road alone: what is right up to it is found wrong.
#[test]
fn the_last_direction_dropped() {
    assert_caught_where_changed(|_, written| {
        let last = written.iter().rposition(|&word| words::kind(word) == kinds::ROAD_PLACES);
        last.into_iter().for_each(|at| written[at] &= !BOTH_MARKS);
    });
}

#[test]
fn directions_dropped_of_a_sheet_already_in_that_layout() {
    for to in Layout::BOTH {
        assert_caught(|asked, told| {
            if asked.to == to && !asked.changes() {
                reread_roads(&mut told.words, |word| word & !BOTH_MARKS);
            }
        });
    }
}

/// As before there were directions: at the first road that has one.
#[test]
fn one_way_roads_refused() {
    for to in Layout::BOTH {
        assert_caught(|asked, told| {
            let is_one_way =
                |&word: &u32| words::kind(word) == kinds::ROAD_PLACES && word & BOTH_MARKS != 0;
            let at = asked.words.iter().position(is_one_way);
            if let Some(at) = at.filter(|_| asked.to == to && told.outcome.number == 0) {
                told.refuse(4, at);
            }
        });
    }
}

/// Taken for a road that runs both ways.
#[test]
fn both_directions_of_a_road_accepted() {
    for to in Layout::BOTH {
        assert_caught(|asked, told| {
            if asked.to == to && told.outcome.number == 4 {
                let mut words = asked.words.clone();
                reread_roads(&mut words, |word| match Direction::told(word) {
                    None => word & !BOTH_MARKS,
                    Some(_) => word,
                });
                laid_out(&words, to).into_iter().for_each(|words| told.write(words));
            }
        });
    }
}
