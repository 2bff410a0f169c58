//! One case judged by an engine and by the implementation.

use crate::difference::{demand, same_bytes, same_number, Checked, Difference};
use crate::lent::Lent;
use crate::{Definitions, Engine, Filled, Implementation};
use reference::answer::Answer;
use reference::generate::random::Random;
use reference::generate::Case;
use reference::judge::{Outcome, BYTES_PER_DISTANCE};
use reference::layout::Front;
use reference::left::Left;
use reference::words::{self, BYTES_PER_WORD};

/// Up to so many places the definitions are asked as well.
const MOST_TO_ENUMERATE: usize = 6;

/// What an engine leaves of a case in dirty buffers. It must write nothing
/// beside what is lent, and nothing into the sheet.
pub fn judged(engine: &dyn Engine, random: &mut Random, case: &Case) -> Result<Left, Difference> {
    let sheet = Lent::holding(random, &case.sheet);
    let mut distances = Lent::dirty(random, case.distances);
    let mut answer = Lent::dirty(random, case.answer);
    let mut result = Lent::dirty(random, case.result);
    let left = Filled {
        distances: distances.bytes_mut(),
        answer: answer.bytes_mut(),
        result: result.bytes_mut(),
    };
    let number = engine.judge(sheet.bytes(), left);
    demand(sheet.bytes() == case.sheet, || "the sheet was written".into())?;
    for (lent, name) in
        [(&sheet, "sheet"), (&distances, "distances"), (&answer, "answer"), (&result, "result")]
    {
        demand(lent.is_guarded(), || format!("bytes outside the {name} were written"))?;
    }
    Ok(Left {
        number,
        distances: distances.bytes().to_vec(),
        answer: answer.bytes().to_vec(),
        result: result.bytes().to_vec(),
    })
}

/// Judges a case with both; every byte and the number must be the same.
pub fn compared(engine: &dyn Engine, random: &mut Random, case: &Case) -> Result<Left, Difference> {
    agreed(engine, random, case).map_err(|difference| difference.on_case(case))
}

/// Where there are few places the definitions themselves are asked as well.
fn agreed(engine: &dyn Engine, random: &mut Random, case: &Case) -> Result<Left, Difference> {
    let left = judged(engine, random, case)?;
    same(&left, &judged(&Implementation, random, case)?)?;
    if is_small(&left) {
        same(&left, &judged(&Definitions, random, case)?)?;
    }
    Ok(left)
}

/// Whether a sheet was accepted that has so few places that all regions of its
/// surrounds can be enumerated in no time.
fn is_small(left: &Left) -> bool {
    left.number == 0 && Front::told_by_bytes(&left.answer).places <= MOST_TO_ENUMERATE
}

/// Demands the same number and the same bytes.
fn same(left: &Left, right: &Left) -> Checked {
    same_number(left.number, right.number)?;
    same_bytes("result", BYTES_PER_DISTANCE, &left.result, &right.result)?;
    same_bytes("distances", BYTES_PER_DISTANCE, &left.distances, &right.distances)?;
    same_bytes("answer", BYTES_PER_WORD, &left.answer, &right.answer)
}

/// Judges the words of a valid sheet with enough lent; gives what is left.
fn accepted(engine: &dyn Engine, random: &mut Random, words: &[u32]) -> Result<Left, Difference> {
    let case = Case::lend(random, words);
    let left = judged(engine, random, &case).and_then(|left| {
        demand(left.number == 0, || format!("a valid sheet was refused with {}", left.number))?;
        Ok(left)
    });
    left.map_err(|difference| difference.on_case(&case))
}

/// What is said to a valid sheet: the result and the whole answer.
pub struct Answered {
    /// The result.
    pub outcome: Outcome,
    /// The answer.
    pub answer: Answer,
}

/// Judges the words of a valid sheet with enough lent; gives what is said to it.
pub fn answered(
    engine: &dyn Engine,
    random: &mut Random,
    words: &[u32],
) -> Result<Answered, Difference> {
    let left = accepted(engine, random, words)?;
    match (left.outcome(), left.whole_answer()) {
        (Some(outcome), Some(answer)) => Ok(Answered { outcome, answer }),
        _ => {
            let broken = Difference::new("the answer is not a whole one");
            Err(broken.on("sheet", &words::to_bytes(words)))
        }
    }
}
