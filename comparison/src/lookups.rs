//! Lookups inside and outside of answers, whole and damaged.

use crate::difference::{demand, Checked};
use crate::lent::Lent;
use crate::reached::{LookedUp, Reached};
use crate::{Engine, Implementation};
use reference::answer::Answer;
use reference::generate::answers::{beyond_limits, damaged, invented, query, query_at_edge, Query};
use reference::generate::random::Random;
use reference::layout::Front;
use reference::words;

/// How many lookups are made in one answer.
const QUERIES: usize = 6;

/// Answers with more verdicts than this are not looked up whole: every lookup
/// reads the whole answer.
const MOST_FOR_ALL: usize = 200;

/// Looks up in an answer as it was lent, in a damaged copy, and now and then in
/// one that belongs to no sheet, or has no place or too many; engine and implementation must agree.
pub fn compare(
    engine: &dyn Engine,
    random: &mut Random,
    answer: &[u8],
    reached: &mut Reached,
) -> Checked {
    whole_and_damaged(engine, random, answer, reached)?;
    if random.chance(10) {
        let whole = words::to_bytes(&invented(random));
        whole_and_damaged(engine, random, &whole, reached)?;
    }
    if random.chance(2) {
        let beyond = words::to_bytes(&beyond_limits(random));
        look_up(engine, random, &LookedUp::lent(&beyond), reached)?;
    }
    Ok(())
}

fn whole_and_damaged(
    engine: &dyn Engine,
    random: &mut Random,
    answer: &[u8],
    reached: &mut Reached,
) -> Checked {
    look_up(engine, random, &LookedUp::lent(answer), reached)?;
    let struck = damaged(random, answer);
    look_up(engine, random, &LookedUp::damaged(&struck, answer), reached)
}

fn look_up(
    engine: &dyn Engine,
    random: &mut Random,
    answer: &LookedUp,
    reached: &mut Reached,
) -> Checked {
    look_up_all(engine, random, answer, reached)
        .map_err(|difference| difference.on("answer", answer.bytes))
}

fn look_up_all(
    engine: &dyn Engine,
    random: &mut Random,
    answer: &LookedUp,
    reached: &mut Reached,
) -> Checked {
    let lent = Lent::holding(random, answer.bytes);
    for _ in 0..QUERIES {
        let asked = any_query(random, answer);
        let (line, sample, place) = asked;
        let found = engine.lookup(lent.bytes(), line, sample, place);
        let expected = Implementation.lookup(answer.bytes, line, sample, place);
        demand(found == expected, || {
            format!("lookup {asked:?}: engine {found}, implementation {expected}")
        })?;
        for label in answer.shown(asked, found) {
            reached.count(&label);
        }
    }
    demand(lent.bytes() == answer.bytes, || "the lookup wrote into the answer".into())
}

/// A query in or near the sizes that the answer's front tells, or at the edge of
/// one of its lines.
fn any_query(random: &mut Random, answer: &LookedUp) -> Query {
    match &answer.whole {
        Some(whole) if random.chance(40) => return query_at_edge(random, whole),
        _ => {}
    }
    let Front { places, middle: lines, samples, .. } = Front::told_by_bytes(answer.bytes);
    query(random, lines as u64, samples as u64, places as u64)
}

/// The lookup of every verdict of a small answer gives what its word says.
pub fn all_words(engine: &dyn Engine, bytes: &[u8], answer: &Answer) -> Checked {
    let verdicts: usize = answer.lines.iter().map(|line| line.verdicts.len()).sum();
    if verdicts > MOST_FOR_ALL {
        return Ok(());
    }
    let rows = answer.lines.iter().enumerate().flat_map(|(number, line)| {
        answer.rows(line).map(move |(sample, row)| (number, sample, row))
    });
    let mut points = rows.flat_map(|(line, sample, row)| {
        row.iter().enumerate().map(move |(place, verdict)| (line, sample, place, verdict))
    });
    points.try_for_each(|(line, sample, place, verdict)| {
        let found = engine.lookup(bytes, line as u64, sample as u64, place as u64);
        let expected = if verdict.yes { 1 } else { 2 };
        demand(found == expected, || {
            format!("lookup ({line}, {sample}, {place}) gives {found} for {verdict:?}")
        })
        .map_err(|difference| difference.on("answer", bytes))
    })
}
