//! The laws of reading on: what a window of until or since says more if it is one
//! sample longer. A sample offers the lesser of right there and of the least left
//! from t to it, t and itself included.

use super::back::{HISTORICALLY, ONCE};
use super::list::{two, ALWAYS, AND, EVENTUALLY, OR};
use super::table::{Bounds, Table};
use super::Pair;
use reference::generate::random::Random;

/// The lines that read in one direction: until or since, and the codes that pick
/// the greatest and the least over a window.
struct Way {
    window: fn(&mut Table, u32, u32, Bounds) -> u32,
    picked: fn(&mut Table, u32, u32, Bounds) -> u32,
    greatest: u32,
    least: u32,
}

const AHEAD: Way =
    Way { window: Table::until, picked: Table::ahead, greatest: EVENTUALLY, least: ALWAYS };

const BACK: Way =
    Way { window: Table::since, picked: Table::back, greatest: ONCE, least: HISTORICALLY };

pub fn until_reads_on(table: &mut Table, random: &mut Random) -> Option<Pair> {
    AHEAD.reads_on(table, random)
}

pub fn until_of_one_sample(table: &mut Table, random: &mut Random) -> Option<Pair> {
    AHEAD.of_one_sample(table, random)
}

pub fn since_reads_on(table: &mut Table, random: &mut Random) -> Option<Pair> {
    BACK.reads_on(table, random)
}

pub fn since_of_one_sample(table: &mut Table, random: &mut Random) -> Option<Pair> {
    BACK.of_one_sample(table, random)
}

impl Way {
    /// A window is the greater of the one that is cut before its last sample and
    /// of what that sample offers.
    fn reads_on(&self, table: &mut Table, random: &mut Random) -> Option<Pair> {
        let (left, right) = two(table, random);
        let (lower, upper) = table.window(random, &[left, right]);
        if lower == upper {
            return None;
        }
        let cut = (self.window)(table, left, right, (lower, upper - 1));
        let offered = self.offered(table, left, right, upper);
        let longer = (self.window)(table, left, right, (lower, upper));
        Some((longer, table.join(OR, cut, offered)))
    }

    /// A window whose last sample is its first, away from t, is what that sample
    /// offers: nothing counts before the lower bound.
    fn of_one_sample(&self, table: &mut Table, random: &mut Random) -> Option<Pair> {
        let (left, right) = two(table, random);
        let far = table.window(random, &[left, right]).1;
        if far == 0 {
            return None;
        }
        let offered = self.offered(table, left, right, far);
        Some(((self.window)(table, left, right, (far, far)), offered))
    }

    /// What the sample so far from t offers.
    fn offered(&self, table: &mut Table, left: u32, right: u32, far: u32) -> u32 {
        let there = (self.picked)(table, self.greatest, right, (far, far));
        let held = (self.picked)(table, self.least, left, (0, far));
        table.join(AND, there, held)
    }
}
