//! The lists by which a sheet of a million words is corrected for the time it takes.

use super::tool_timing::{self, Times};
use crate::tools::{Tool, Tools};
use reference::correct::{self, Aim, Correction};
use reference::generate::corrections::settle;
use reference::generate::random::Random;
use reference::generate::valid::Numbers;
use reference::layout::Front;
use reference::words;

/// The corrections of most lists, and of a long one.
const MANY: usize = 10_000;
const MORE: usize = 300_000;

/// The revisions that there are.
const REVISIONS: usize = 255;

/// The lists for a valid sheet, each with a name.
pub fn timed_lists(words: &[u32]) -> [(&'static str, Vec<Correction>); 7] {
    let front = Front::told(words);
    [
        ("none", Vec::new()),
        ("10,000, unlike samples", of_unlike_samples(&front, MANY)),
        ("10,000, drawn at random", at_random(&front, MANY)),
        ("10,000, one sample", of_one_sample(&front)),
        ("10,000, all the same", vec![of_one_sample(&front)[0]; MANY]),
        ("300,000, drawn at random", at_random(&front, MORE)),
        ("1,048,576, every sample", of_unlike_samples(&front, samples(&front))),
    ]
}

/// Times both correctors and a copy on a sheet and a list.
///
/// # Panics
///
/// If the sheet or the list is refused, or if the correctors do not agree.
pub fn timed(tools: &dyn Tools, words: &[u32], corrections: &[Correction]) -> Times {
    let list = correct::list(corrections);
    let expected = correct::corrected(words, &list).expect("a valid sheet and a right list");
    let [sheet, list, expected] = [words, &list, &expected].map(words::to_bytes);
    tool_timing::timed(tools, Tool::Correct, &[&sheet, &list], &expected)
}

/// How many samples a sheet has.
fn samples(front: &Front) -> usize {
    front.places * front.middle * front.samples
}

/// The sample that stands at an index among all of them.
fn aim(front: &Front, index: usize) -> Aim {
    let (row, signal) = (index / front.middle, index % front.middle);
    let [signal, time, place] =
        [signal, row / front.places, row % front.places].map(|number| number as u32);
    Aim { signal, time, place }
}

/// So many of revision 1, the samples spread over the sheet, and in no order.
fn of_unlike_samples(front: &Front, count: usize) -> Vec<Correction> {
    let mut random = Random::new(107);
    let apart = samples(front) / count;
    let mut indices: Vec<usize> = (0..count).map(|at| at * apart).collect();
    random.shuffle(&mut indices);
    let value = |random: &mut Random| Numbers::Any.draw(random);
    indices
        .iter()
        .map(|&at| Correction { revision: 1, aim: aim(front, at), value: value(&mut random) })
        .collect()
}

/// Any revision of any sample, of which some are hit more than once.
fn at_random(front: &Front, count: usize) -> Vec<Correction> {
    let mut random = Random::new(255);
    let mut draw = || Correction {
        revision: random.field(1, REVISIONS as u32),
        aim: aim(front, random.below(samples(front))),
        value: Numbers::Any.draw(&mut random),
    };
    let mut corrections: Vec<Correction> = (0..count).map(|_| draw()).collect();
    settle(&mut corrections);
    corrections
}

/// All revisions of one sample in the middle, over and over, each with a value of its
/// own.
fn of_one_sample(front: &Front) -> Vec<Correction> {
    let aim = aim(front, samples(front) / 2);
    let of_revision = |revision: usize| Correction {
        revision: revision as u32,
        aim,
        value: 1_000 - revision as i32,
    };
    (0..MANY).map(|at| of_revision(1 + at % REVISIONS)).collect()
}
