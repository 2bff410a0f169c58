//! The laws of surrounds. At a centre p a surround is the greatest, over the
//! regions that its bounds allow, of the least of left on the region and of right
//! on its boundary. Code 15 has all these regions, code 7 those with a boundary.

use super::list::{distances, two, AND, EVERYWHERE, OR, SOMEWHERE};
use super::table::{Bounds, Table};
use super::Pair;
use reference::generate::random::Random;
use reference::sheet::GREATEST_WEIGHT as GREATEST;

const WITHOUT: u32 = 7;
const WITH: u32 = 15;

/// As far as one road can go, from the centre on or from the next place on.
const EVERY_ROAD: Bounds = (0, GREATEST);
const FROM_NEXT: Bounds = (1, GREATEST);

fn either(random: &mut Random) -> u32 {
    random.pick(&[WITHOUT, WITH])
}

/// The centre belongs to its region.
pub fn needs_left(table: &mut Table, random: &mut Random) -> Option<Pair> {
    let (left, right) = two(table, random);
    let surround = table.surround(either(random), left, right, distances(random));
    Some((surround, table.join(AND, surround, left)))
}

/// Wider bounds allow what narrower ones allow, and a boundary is empty or not
/// whatever the bounds are.
pub fn grows(table: &mut Table, random: &mut Random) -> Option<Pair> {
    let (left, right) = two(table, random);
    let code = either(random);
    let (lower, upper) = distances(random);
    let wide = (random.field(0, lower), (upper + random.field(0, 3)).min(GREATEST));
    let narrow = table.surround(code, left, right, (lower, upper));
    let wider = table.surround(code, left, right, wide);
    Some((wider, table.join(OR, narrow, wider)))
}

/// Where right is lower, every region is, or as low.
pub fn by_both(table: &mut Table, random: &mut Random) -> Option<Pair> {
    let (left, right) = two(table, random);
    let other = table.any_with(random, &[left, right]);
    let (code, bounds) = (either(random), distances(random));
    let both = table.join(AND, right, other);
    let by_both = table.surround(code, left, both, bounds);
    let by_one = table.surround(code, left, right, bounds);
    Some((by_both, table.join(AND, by_both, by_one)))
}

/// Where left is lower, every region is, or as low.
pub fn of_both(table: &mut Table, random: &mut Random) -> Option<Pair> {
    let (left, right) = two(table, random);
    let other = table.any_with(random, &[left, right]);
    let (code, bounds) = (either(random), distances(random));
    let both = table.join(AND, left, other);
    let of_both = table.surround(code, both, right, bounds);
    let of_one = table.surround(code, left, right, bounds);
    Some((of_both, table.join(AND, of_both, of_one)))
}

/// The centre alone is a region, and every road is within the greatest bound.
pub fn with_by_true(table: &mut Table, random: &mut Random) -> Option<Pair> {
    let left = table.any(random);
    let truth = table.truth();
    Some((left, table.surround(WITH, left, truth, EVERY_ROAD)))
}

/// The regions of code 15 are those of code 7 and those with an empty boundary.
/// The latter are what is left of a surround by nothing: any other has a place on
/// its boundary where right is minus infinity.
pub fn with_is_without_or_island(table: &mut Table, random: &mut Random) -> Option<Pair> {
    let (left, right) = two(table, random);
    let bounds = distances(random);
    let nothing = table.falsehood();
    let island = table.surround(WITH, left, nothing, bounds);
    let without = table.surround(WITHOUT, left, right, bounds);
    // An island has left's samples; the other side brings right's in as well.
    let either = table.join(OR, without, island);
    Some((table.surround(WITH, left, right, bounds), either))
}

/// The one region that can be an island is all that the centre reaches, and only
/// where all of it is within the upper bound: there true is an island too.
pub fn island_is_everywhere(table: &mut Table, random: &mut Random) -> Option<Pair> {
    let left = table.any(random);
    let bounds = distances(random);
    let (truth, nothing) = (table.truth(), table.falsehood());
    let is_there = table.surround(WITH, truth, nothing, bounds);
    let everywhere = table.around(EVERYWHERE, left, (0, bounds.1));
    let island = table.surround(WITH, left, nothing, bounds);
    Some((island, table.join(AND, everywhere, is_there)))
}

/// The regions of code 7 are regions of code 15.
pub fn without_below_with(table: &mut Table, random: &mut Random) -> Option<Pair> {
    let (left, right) = two(table, random);
    let bounds = distances(random);
    let without = table.surround(WITHOUT, left, right, bounds);
    let with = table.surround(WITH, left, right, bounds);
    Some((without, table.join(AND, without, with)))
}

/// Where a place can be reached that is not within the upper bound, no region
/// has an empty boundary, as such a region is all that can be reached.
pub fn same_where_network_goes_on(table: &mut Table, random: &mut Random) -> Option<Pair> {
    let (left, right) = two(table, random);
    let bounds = distances(random);
    let (truth, nothing) = (table.truth(), table.falsehood());
    let is_island = table.surround(WITH, truth, nothing, bounds);
    let goes_on = table.not(is_island);
    let without = table.surround(WITHOUT, left, right, bounds);
    let with = table.surround(WITH, left, right, bounds);
    Some((table.join(AND, without, goes_on), table.join(AND, with, goes_on)))
}

/// The centre alone is a region, with a boundary unless it is a lone place.
pub fn without_by_true(table: &mut Table, random: &mut Random) -> Option<Pair> {
    let left = table.any(random);
    let truth = table.truth();
    let beside = table.around(SOMEWHERE, truth, FROM_NEXT);
    let surround = table.surround(WITHOUT, left, truth, EVERY_ROAD);
    Some((surround, table.join(AND, left, beside)))
}

/// Every boundary has a place, where right is minus infinity.
pub fn without_by_nothing(table: &mut Table, random: &mut Random) -> Option<Pair> {
    let left = table.any(random);
    let nothing = table.falsehood();
    let surround = table.surround(WITHOUT, left, nothing, distances(random));
    Some((surround, table.join(AND, left, nothing)))
}

/// The only place at distance 0 is the centre, which is in its region and not on
/// the boundary.
pub fn without_here(table: &mut Table, random: &mut Random) -> Option<Pair> {
    let (left, right) = two(table, random);
    let nothing = table.falsehood();
    let either = table.join(OR, left, right);
    let surround = table.surround(WITHOUT, left, right, (0, 0));
    Some((surround, table.join(AND, either, nothing)))
}

/// Every boundary has a place within the bounds, which is not the centre and so
/// is at least 1 away.
pub fn without_below_right(table: &mut Table, random: &mut Random) -> Option<Pair> {
    let (left, right) = two(table, random);
    let (lower, upper) = distances(random);
    if upper == 0 {
        return None;
    }
    let surround = table.surround(WITHOUT, left, right, (lower, upper));
    let around = table.around(SOMEWHERE, right, (lower.max(1), upper));
    Some((surround, table.join(AND, surround, around)))
}

/// The centre alone is a region. Its boundary lies within the greatest bound and
/// is not empty where another place does.
pub fn without_above_one(table: &mut Table, random: &mut Random) -> Option<Pair> {
    let (left, right) = two(table, random);
    let truth = table.truth();
    let beside = table.around(SOMEWHERE, truth, FROM_NEXT);
    let around = table.around(EVERYWHERE, right, FROM_NEXT);
    let by_all = table.join(AND, left, around);
    let one = table.join(AND, by_all, beside);
    let surround = table.surround(WITHOUT, left, right, EVERY_ROAD);
    Some((surround, table.join(OR, surround, one)))
}
