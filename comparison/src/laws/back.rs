//! The laws of looking back.

use super::list::{two, ALWAYS, AND, EVENTUALLY, OR};
use super::table::Table;
use super::Pair;
use reference::generate::random::Random;

pub const ONCE: u32 = 13;
pub const HISTORICALLY: u32 = 14;

pub fn once_is_since(table: &mut Table, random: &mut Random) -> Option<Pair> {
    let left = table.any(random);
    let bounds = table.times(random, &[left]);
    let truth = table.truth();
    Some((table.back(ONCE, left, bounds), table.since(truth, left, bounds)))
}

/// Each of the two is not the other of not.
pub fn historically_is_not_once(table: &mut Table, random: &mut Random) -> Option<Pair> {
    let left = table.any(random);
    let bounds = table.times(random, &[left]);
    let (code, other) = random.pick(&[(ONCE, HISTORICALLY), (HISTORICALLY, ONCE)]);
    let not = table.not(left);
    let other = table.back(other, not, bounds);
    Some((table.back(code, left, bounds), table.not(other)))
}

pub fn since_now(table: &mut Table, random: &mut Random) -> Option<Pair> {
    let (left, right) = two(table, random);
    Some((table.since(left, right, (0, 0)), table.join(AND, left, right)))
}

/// Up to 0: left now, and right now or since up to the sample before.
pub fn since_unrolled(table: &mut Table, random: &mut Random) -> Option<Pair> {
    let (left, right) = two(table, random);
    let upper = table.times(random, &[left, right]).1;
    if upper == 0 {
        return None;
    }
    let shorter = table.since(left, right, (0, upper - 1));
    let before = table.back(ONCE, shorter, (1, 1));
    let either = table.join(OR, right, before);
    Some((table.since(left, right, (0, upper)), table.join(AND, left, either)))
}

/// Up to earlier: left now, and since up to the sample before, a step later.
pub fn since_waits(table: &mut Table, random: &mut Random) -> Option<Pair> {
    let (left, right) = two(table, random);
    let (lower, upper) = table.times(random, &[left, right]);
    if lower == 0 {
        return None;
    }
    let later = table.since(left, right, (lower - 1, upper - 1));
    let before = table.back(ONCE, later, (1, 1));
    Some((table.since(left, right, (lower, upper)), table.join(AND, left, before)))
}

pub fn since_of_or(table: &mut Table, random: &mut Random) -> Option<Pair> {
    let (left, right) = two(table, random);
    let other = table.any_with(random, &[left, right]);
    let bounds = table.times(random, &[left, right, other]);
    let either = table.join(OR, right, other);
    let since_right = table.since(left, right, bounds);
    let since_other = table.since(left, other, bounds);
    Some((table.since(left, either, bounds), table.join(OR, since_right, since_other)))
}

pub fn windows_back_add_up(table: &mut Table, random: &mut Random) -> Option<Pair> {
    let left = table.any(random);
    let one = table.times(random, &[left]);
    let other = table.times(random, &[left]);
    let code = random.pick(&[ONCE, HISTORICALLY]);
    let inner = table.back(code, left, one);
    let both = (one.0 + other.0, one.1 + other.1);
    Some((table.back(code, inner, other), table.back(code, left, both)))
}

pub fn ahead_and_back_exchange(table: &mut Table, random: &mut Random) -> Option<Pair> {
    let left = table.any(random);
    let (ahead, back) = (table.times(random, &[left]), table.times(random, &[left]));
    let (code_ahead, code_back) = random.pick(&[(EVENTUALLY, ONCE), (ALWAYS, HISTORICALLY)]);
    let looked_ahead = table.ahead(code_ahead, left, ahead);
    let looked_back = table.back(code_back, left, back);
    let one = table.back(code_back, looked_ahead, back);
    Some((one, table.ahead(code_ahead, looked_back, ahead)))
}

/// What a window of one sample says so many samples ahead of what one says as many
/// back is what is said now. Two lines are the same where their and is their or.
pub fn one_sample_back(table: &mut Table, random: &mut Random) -> Option<Pair> {
    let left = table.any(random);
    let far = table.times(random, &[left]).1;
    let step = (far, far);
    let back = table.back(random.pick(&[ONCE, HISTORICALLY]), left, step);
    let again = table.ahead(random.pick(&[EVENTUALLY, ALWAYS]), back, step);
    Some((table.join(AND, again, left), table.join(OR, again, left)))
}
