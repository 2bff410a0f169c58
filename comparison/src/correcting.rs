//! Late corrections: sheets corrected by an engine and by the implementation, and what
//! the engine alone must keep.

mod kept;

pub use kept::{check, labels};

use crate::difference::Checked;
use crate::reached::Reached;
use crate::tools::{compared, Tool, Tools};
use reference::correct;
use reference::generate::corrections::{all_over, clash_of_ends, spoil};
use reference::generate::random::Random;
use reference::generate::tools::{correction, Given};
use reference::layout::Front;
use reference::page;
use reference::worked::{CORRECTIONS_OF_A, WIDE_A};

/// So many corrections, about, has a list for a sheet of a million words. Two bytes do
/// not hold the number of its words.
const MANY: usize = 24_000;

/// Corrects a sheet's bytes, right or wrong, by a list that is right or wrong as well,
/// with enough lent or not; engine and implementation must agree.
pub fn compare(
    tools: &dyn Tools,
    random: &mut Random,
    sheet: &[u8],
    reached: &mut Reached,
) -> Checked {
    let given = correction(random, sheet);
    compare_given(tools, random, &given, reached)
}

fn compare_given(
    tools: &dyn Tools,
    random: &mut Random,
    given: &Given,
    reached: &mut Reached,
) -> Checked {
    let left = compared(tools, random, Tool::Correct, given)?;
    reached.count_corrected(given, &left);
    Ok(())
}

/// Example A in both layouts by the worked list, by the same with a fourth correction
/// that clashes or with its first word at fault, and by none, with as much room as is
/// needed and with a word less.
pub fn compare_worked(tools: &dyn Tools, random: &mut Random, reached: &mut Reached) -> Checked {
    let mut without_revision = CORRECTIONS_OF_A;
    without_revision[0] = 0xB000_0001;
    let clashing = [&CORRECTIONS_OF_A[..], &[0xB010_0001, 0xC000_0000, 0x4000_0007]].concat();
    for sheet in [&page::words("words a-sheet")[..], &WIDE_A] {
        for list in [&CORRECTIONS_OF_A[..], &clashing, &without_revision, &[]] {
            for room in [sheet.len(), sheet.len() - 1] {
                let given = Given::of(&[sheet, list], room);
                compare_given(tools, random, &given, reached)?;
            }
        }
    }
    Ok(())
}

/// Corrects a valid sheet by long lists: one that is right, the same with the last
/// correction clashing with the first, and with a fault besides.
pub fn compare_long_lists(
    tools: &dyn Tools,
    random: &mut Random,
    words: &[u32],
    reached: &mut Reached,
) -> Checked {
    let front = Front::told(words);
    let count = random.count(MANY - MANY / 16, MANY + MANY / 16);
    let mut corrections = all_over(random, &front, count);
    let right = correct::list(&corrections);
    clash_of_ends(random, &mut corrections);
    let clashing = correct::list(&corrections);
    let mut faulty = clashing.clone();
    spoil(random, &front, &mut faulty);
    for list in [right, clashing, faulty] {
        let given = Given::of(&[words, &list], words.len() + random.count(0, 1));
        compare_given(tools, random, &given, reached)?;
    }
    Ok(())
}
