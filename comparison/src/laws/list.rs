//! The laws, and those of them that neither look back nor speak of surrounds nor
//! of reading on.

use super::table::{Bounds, Table};
use super::{back, reading, surrounds};
use super::{Law, Pair};
use reference::generate::random::Random;
use reference::sheet::GREATEST_WEIGHT as GREATEST;

pub const AND: u32 = 4;
pub const SOMEWHERE: u32 = 6;
pub const OR: u32 = 8;
pub const EVENTUALLY: u32 = 9;
pub const ALWAYS: u32 = 10;
pub const EVERYWHERE: u32 = 11;

/// All laws.
pub const LAWS: [Law; 40] = [
    ("not not left is left", not_not),
    ("or is not (not left and not right)", or_is_not_and),
    ("and exchanges its sides", and_exchanges),
    ("eventually is true until left", eventually_is_until),
    ("always is not eventually not", always_is_not_eventually),
    ("everywhere is not somewhere not", everywhere_is_not_somewhere),
    ("until 0..0 is and", until_now),
    ("until takes one step at a time", until_unrolled),
    ("until that waits takes one step at a time", until_waits),
    ("windows add up", windows_add_up),
    ("somewhere 0..0 is left", somewhere_here),
    ("somewhere splits its range", somewhere_splits),
    ("somewhere goes through or", somewhere_of_or),
    ("surround needs left", surrounds::needs_left),
    ("surround grows with its bounds", surrounds::grows),
    ("surround by both is no more than by one", surrounds::by_both),
    ("surround of both is no more than of one", surrounds::of_both),
    ("with islands, surround by true is left", surrounds::with_by_true),
    ("with islands, surround is one without or an island", surrounds::with_is_without_or_island),
    ("an island has left everywhere", surrounds::island_is_everywhere),
    ("without islands, surround is no more than with", surrounds::without_below_with),
    ("beyond the ball there are no islands", surrounds::same_where_network_goes_on),
    ("without islands, surround by true is left beside another", surrounds::without_by_true),
    ("without islands, nothing surrounds nothing", surrounds::without_by_nothing),
    ("without islands, surround 0..0 is nothing", surrounds::without_here),
    ("without islands, surround is no more than right around", surrounds::without_below_right),
    ("without islands, surround is no less than of one place", surrounds::without_above_one),
    ("once is true since left", back::once_is_since),
    ("historically is not once not, and once not historically not", back::historically_is_not_once),
    ("since 0..0 is and", back::since_now),
    ("since takes one step at a time", back::since_unrolled),
    ("since that waits takes one step at a time", back::since_waits),
    ("since goes through or", back::since_of_or),
    ("windows back add up", back::windows_back_add_up),
    ("looking ahead and looking back exchange", back::ahead_and_back_exchange),
    ("a step back and a step ahead lead to the present", back::one_sample_back),
    ("until is that of one sample less, or what the last offers", reading::until_reads_on),
    ("until of one sample is what it offers", reading::until_of_one_sample),
    ("since is that of one sample less, or what the last offers", reading::since_reads_on),
    ("since of one sample is what it offers", reading::since_of_one_sample),
];

/// Two lines that have a sample in common.
pub fn two(table: &Table, random: &mut Random) -> Pair {
    let left = table.any(random);
    (left, table.any_with(random, &[left]))
}

/// Bounds of distance, mostly of a few roads.
pub fn distances(random: &mut Random) -> Bounds {
    let (a, b) = (random.field(0, 6), random.field(0, 6));
    let upper = random.pick(&[a.max(b), a.max(b), GREATEST]);
    (a.min(b), upper)
}

fn not_not(table: &mut Table, random: &mut Random) -> Option<Pair> {
    let left = table.any(random);
    let not = table.not(left);
    Some((left, table.not(not)))
}

fn or_is_not_and(table: &mut Table, random: &mut Random) -> Option<Pair> {
    let (left, right) = two(table, random);
    let (not_left, not_right) = (table.not(left), table.not(right));
    let neither = table.join(AND, not_left, not_right);
    Some((table.join(OR, left, right), table.not(neither)))
}

fn and_exchanges(table: &mut Table, random: &mut Random) -> Option<Pair> {
    let (left, right) = two(table, random);
    Some((table.join(AND, left, right), table.join(AND, right, left)))
}

fn eventually_is_until(table: &mut Table, random: &mut Random) -> Option<Pair> {
    let left = table.any(random);
    let bounds = table.times(random, &[left]);
    let truth = table.truth();
    Some((table.ahead(EVENTUALLY, left, bounds), table.until(truth, left, bounds)))
}

fn always_is_not_eventually(table: &mut Table, random: &mut Random) -> Option<Pair> {
    let left = table.any(random);
    let bounds = table.times(random, &[left]);
    let not = table.not(left);
    let eventually = table.ahead(EVENTUALLY, not, bounds);
    Some((table.ahead(ALWAYS, left, bounds), table.not(eventually)))
}

fn everywhere_is_not_somewhere(table: &mut Table, random: &mut Random) -> Option<Pair> {
    let left = table.any(random);
    let bounds = distances(random);
    let not = table.not(left);
    let somewhere = table.around(SOMEWHERE, not, bounds);
    Some((table.around(EVERYWHERE, left, bounds), table.not(somewhere)))
}

fn until_now(table: &mut Table, random: &mut Random) -> Option<Pair> {
    let (left, right) = two(table, random);
    Some((table.until(left, right, (0, 0)), table.join(AND, left, right)))
}

/// From 0 on: left now, and right now or until from the next sample on.
fn until_unrolled(table: &mut Table, random: &mut Random) -> Option<Pair> {
    let (left, right) = two(table, random);
    let upper = table.times(random, &[left, right]).1;
    if upper == 0 {
        return None;
    }
    let shorter = table.until(left, right, (0, upper - 1));
    let next = table.ahead(EVENTUALLY, shorter, (1, 1));
    let either = table.join(OR, right, next);
    Some((table.until(left, right, (0, upper)), table.join(AND, left, either)))
}

/// From later on: left now, and until from the next sample on, a step sooner.
fn until_waits(table: &mut Table, random: &mut Random) -> Option<Pair> {
    let (left, right) = two(table, random);
    let (lower, upper) = table.times(random, &[left, right]);
    if lower == 0 {
        return None;
    }
    let sooner = table.until(left, right, (lower - 1, upper - 1));
    let next = table.ahead(EVENTUALLY, sooner, (1, 1));
    Some((table.until(left, right, (lower, upper)), table.join(AND, left, next)))
}

fn windows_add_up(table: &mut Table, random: &mut Random) -> Option<Pair> {
    let left = table.any(random);
    let one = table.times(random, &[left]);
    let other = table.times(random, &[left]);
    let code = random.pick(&[EVENTUALLY, ALWAYS]);
    let inner = table.ahead(code, left, one);
    let both = (one.0 + other.0, one.1 + other.1);
    Some((table.ahead(code, inner, other), table.ahead(code, left, both)))
}

fn somewhere_here(table: &mut Table, random: &mut Random) -> Option<Pair> {
    let left = table.any(random);
    let code = random.pick(&[SOMEWHERE, EVERYWHERE]);
    Some((left, table.around(code, left, (0, 0))))
}

fn somewhere_splits(table: &mut Table, random: &mut Random) -> Option<Pair> {
    let left = table.any(random);
    let middle = random.field(0, 6);
    let far = random.pick(&[middle + 1, middle + 4, GREATEST]);
    let near = table.around(SOMEWHERE, left, (0, middle));
    let beyond = table.around(SOMEWHERE, left, (middle + 1, far));
    Some((table.around(SOMEWHERE, left, (0, far)), table.join(OR, near, beyond)))
}

fn somewhere_of_or(table: &mut Table, random: &mut Random) -> Option<Pair> {
    let (left, right) = two(table, random);
    let bounds = distances(random);
    let either = table.join(OR, left, right);
    let one = table.around(SOMEWHERE, left, bounds);
    let other = table.around(SOMEWHERE, right, bounds);
    Some((table.around(SOMEWHERE, either, bounds), table.join(OR, one, other)))
}
