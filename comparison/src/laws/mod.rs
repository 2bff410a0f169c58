//! Laws of the logic, on the engine alone: in one table stand two lines that
//! must say the same at every sample and place, verdict and margin.

mod back;
mod list;
mod reading;
mod surrounds;
mod table;

pub use list::LAWS;

use crate::difference::{demand, Checked};
use crate::judging::answered;
use crate::reached::Reached;
use crate::Engine;
use reference::generate::random::Random;
use reference::generate::valid;
use reference::words;
use table::Table;

/// How many laws are tried on one sheet; with its own lines they stay below 64.
const LAWS_A_SHEET: usize = 5;

/// Two lines of a table that say the same.
pub type Pair = (u32, u32);

/// Writes two lines that say the same into a table; nothing where the lines
/// drawn are too short for that.
pub type Write = fn(&mut Table, &mut Random) -> Option<Pair>;

/// A law: its name, and how it is written.
pub type Law = (&'static str, Write);

/// Tries some laws on the lines of a random sheet.
pub fn check(engine: &dyn Engine, random: &mut Random, reached: &mut Reached) -> Checked {
    let words = sheet(random);
    let mut table = Table::resume(&words);
    let pairs = written(&mut table, random);
    let words = table.words();
    let answer = answered(engine, random, &words)?.answer;
    reached.count_layout("laws", &words);
    let line = |number: u32| answer.lines.get(number as usize);
    for (name, (one, other)) in pairs {
        let broken = || format!("lines {one} and {other} break: {name}");
        demand(line(one) == line(other), broken)
            .map_err(|difference| difference.on("sheet", &words::to_bytes(&words)))?;
        reached.count(&format!("law: {name}"));
    }
    Ok(())
}

/// A small sheet, now and then one of a city: laws are written without regard to
/// what they cost there.
fn sheet(random: &mut Random) -> Vec<u32> {
    if random.chance(1) {
        valid::bare_city(random)
    } else {
        valid::small_sheet(random, 12)
    }
}

/// Writes some laws into a table; gives each with its two lines.
fn written(table: &mut Table, random: &mut Random) -> Vec<(&'static str, Pair)> {
    let mut write = |_| {
        let (name, write) = random.pick(&LAWS);
        write(table, random).map(|pair| (name, pair))
    };
    (0..LAWS_A_SHEET).filter_map(&mut write).collect()
}
