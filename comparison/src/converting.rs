//! The converter: sheets taken to both layouts by an engine and by the
//! implementation, and what the engine alone must keep, there and back.

use crate::difference::{demand, Checked, Difference};
use crate::judging::{answered, Answered};
use crate::reached::{one_way, with_one_way, Reached};
use crate::tools::{compared, written, Tool, Tools};
use crate::Engine;
use reference::convert::laid_out;
use reference::generate::random::Random;
use reference::generate::tools::{conversion, Given};
use reference::generate::valid;
use reference::layout::{Front, Layout, MOST_PLACES};
use reference::words;

/// Of a hundred sheets that are taken there and back so many have about 64 places.
const AROUND_LIMIT: usize = 20;

/// What a run must have taken there and back: sheets of both layouts, and such with
/// roads that run one way.
pub fn labels() -> impl Iterator<Item = String> {
    Layout::BOTH.into_iter().map(label).flat_map(|label| [label.clone(), with_one_way(&label)])
}

fn label(from: Layout) -> String {
    let from = if from.is_wide() { "wide" } else { "narrow" };
    format!("there and back, both sheets judged: from a {from} sheet")
}

/// Takes a sheet's bytes, right or wrong, to both layouts, with enough lent or not;
/// engine and implementation must agree.
pub fn compare(
    tools: &dyn Tools,
    random: &mut Random,
    sheet: &[u8],
    reached: &mut Reached,
) -> Checked {
    for layout in Layout::BOTH {
        let given = conversion(random, sheet, layout);
        compare_given(tools, random, (layout, &given), reached)?;
    }
    Ok(())
}

fn compare_given(
    tools: &dyn Tools,
    random: &mut Random,
    (to, given): (Layout, &Given),
    reached: &mut Reached,
) -> Checked {
    let left = compared(tools, random, Tool::Convert(to), given)?;
    reached.count_converted(to, given, &left);
    Ok(())
}

/// Takes a valid sheet of at most 64 places to the other layout and back, each time
/// with as much room as is needed and with a word less; engine and implementation
/// must agree.
pub fn compare_both_ways(
    tools: &dyn Tools,
    random: &mut Random,
    words: &[u32],
    reached: &mut Reached,
) -> Checked {
    let layout = Layout::of(words);
    let other = laid_out(words, layout.other()).expect("a valid sheet of at most 64 places");
    let sheets = [(words, other.len(), layout.other()), (&other, words.len(), layout)];
    for (sheet, needed, to) in sheets {
        for room in [needed, needed - 1] {
            let given = Given::of(&[sheet], room);
            compare_given(tools, random, (to, &given), reached)?;
        }
    }
    Ok(())
}

/// Takes a random sheet that is valid to both layouts, and there and back.
pub fn check(
    engine: &dyn Engine,
    tools: &dyn Tools,
    random: &mut Random,
    reached: &mut Reached,
) -> Checked {
    let words = valid_sheet(random);
    compare(tools, random, &words::to_bytes(&words), reached)?;
    there_and_back(engine, tools, random, &words)?;
    if Front::told(&words).places <= MOST_PLACES {
        let label = label(Layout::of(&words));
        reached.count(&label);
        if one_way::is_in(&words) {
            reached.count(&with_one_way(&label));
        }
    }
    Ok(())
}

fn valid_sheet(random: &mut Random) -> Vec<u32> {
    if random.chance(AROUND_LIMIT) {
        valid::around_limit(random)
    } else {
        valid::sheet_or_city(random, 16)
    }
}

/// Takes a valid sheet to the other layout and back, if it has at most 64 places:
/// "There and back gives the original words. Both sheets give the same verdicts and
/// margins." Engine and tools are compared with nothing but themselves.
pub fn there_and_back(
    engine: &dyn Engine,
    tools: &dyn Tools,
    random: &mut Random,
    words: &[u32],
) -> Checked {
    if Front::told(words).places > MOST_PLACES {
        return Ok(());
    }
    let layout = Layout::of(words);
    let mut taken = |words: &[u32], to: Layout| {
        let given = Given::of(&[words], words.len() + random.count(1, 9));
        written(tools, random, Tool::Convert(to), &given)
    };
    let there = taken(words, layout.other())?;
    let back = taken(&there, layout)?;
    let one = answered(engine, random, words)?;
    let other = answered(engine, random, &there)?;
    let kept = demand(back == words, || "there and back the words are others".into());
    kept.and_then(|()| say_the_same(&one, &other)).map_err(|difference| {
        let difference = difference.on("one sheet", &words::to_bytes(words));
        difference.on("the sheet in the other layout", &words::to_bytes(&there))
    })
}

/// Demands that the same is said to both sheets at every line, sample and place,
/// with as many rounds and yes verdicts.
fn say_the_same(one: &Answered, other: &Answered) -> Checked {
    let counts = [one, other].map(|said| (said.outcome.rounds, said.outcome.yes));
    demand(counts[0] == counts[1], || format!("unlike rounds and yes counts: {counts:?}"))?;
    let (one, other) = (&one.answer, &other.answer);
    let sizes = [one, other].map(|answer| (answer.places, answer.lines.len()));
    demand(sizes[0] == sizes[1], || format!("unlike places and lines: {sizes:?}"))?;
    match one.lines.iter().zip(&other.lines).position(|(one, other)| one != other) {
        Some(line) => Err(Difference::new(format!("line {line} is not the same in both layouts"))),
        None => Ok(()),
    }
}
