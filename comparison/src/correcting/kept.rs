//! What correcting keeps, of the engine alone: words that nothing is aimed at, what the
//! same list has done already, and what a list says in whatever order. Both sheets are
//! judged as sheets are that are alike but for samples.

use crate::alike::Alike;
use crate::deciding::decided_alike;
use crate::difference::{demand, Checked, Difference};
use crate::reached::{chosen, Reached};
use crate::tools::{written, Tool, Tools};
use crate::{raising, steadiness, Engine};
use reference::correct::{self, Correction};
use reference::generate::aim::lent::{few_distances, short_answer};
use reference::generate::corrections::right;
use reference::generate::random::Random;
use reference::generate::tools::Given;
use reference::generate::valid::{self, MOST};
use reference::generate::Case;
use reference::layout::Front;
use reference::{tool, words};
use std::collections::BTreeSet;

/// The check by its name.
const NAME: &str = "corrections";

/// What is looked for in a sheet and the corrected one.
const OF_BOTH: [&str; 4] = [
    "nothing changed",
    "a verdict that turned",
    "a margin that moved as far as the sample that moved most",
    "refused alike for what was lent",
];

/// What is looked for where no sample fell.
const OF_RAISED: [&str; 2] = ["a no that became a yes", "a margin that rose"];

/// How far corrections may move samples.
#[derive(Clone, Copy)]
enum Moves {
    /// To the values that were drawn.
    Anywhere,
    /// No farther than this.
    Near(i64),
    /// Up, and no farther than this.
    Up(i64),
}

impl Moves {
    fn pick(random: &mut Random) -> Self {
        random.pick(&[
            Moves::Anywhere,
            Moves::Near(1),
            Moves::Near(5),
            Moves::Up(1),
            Moves::Up(2),
            Moves::Up(MOST.into()),
        ])
    }

    /// The value to be sent instead of one that was drawn, for a sample that has this.
    fn value(self, drawn: i64, sample: i64) -> i64 {
        let moved = drawn - sample;
        match self {
            Moves::Anywhere => drawn,
            Moves::Near(far) => sample + moved.clamp(-far, far),
            Moves::Up(far) => (sample + moved.abs().min(far)).min(MOST.into()),
        }
    }

    fn is_up(self) -> bool {
        matches!(self, Moves::Up(_))
    }
}

/// What a run must have reached.
pub fn labels() -> impl Iterator<Item = String> {
    OF_BOTH.into_iter().map(label).chain(OF_RAISED.into_iter().map(raised_label))
}

fn label(text: &str) -> String {
    format!("{NAME}: {text}")
}

fn raised_label(text: &str) -> String {
    format!("{NAME} upward: {text}")
}

/// Corrects a random sheet by a random list, both valid. Where values only rise, its
/// table has none of the codes that may fall.
pub fn check(
    engine: &dyn Engine,
    tools: &dyn Tools,
    random: &mut Random,
    reached: &mut Reached,
) -> Checked {
    let moves = Moves::pick(random);
    let words = if moves.is_up() {
        raising::sheet_that_rises(random)
    } else {
        valid::sheet_or_city(random, 16)
    };
    let corrections = drawn(random, &words, moves);
    let alike = kept(engine, tools, random, &words, &corrections)?;
    let is_refused = is_refused_alike(engine, random, &alike)?;
    reached.count_layout(NAME, &words);
    chosen(&OF_BOTH, of_both(&alike, is_refused)).for_each(|text| reached.count(&label(text)));
    if moves.is_up() {
        raising::demanded(&alike)?;
        let of_raised = chosen(&OF_RAISED, of_raised(&alike));
        of_raised.for_each(|text| reached.count(&raised_label(text)));
    }
    Ok(())
}

/// Corrections for a valid sheet that do not clash. What moves a sample depends on what
/// was drawn for it alone, so that equal values stay equal.
fn drawn(random: &mut Random, words: &[u32], moves: Moves) -> Vec<Correction> {
    let sheet = tool::valid(words).expect("a valid sheet");
    let mut corrections = right(random, &Front::told(words), words.len());
    for Correction { aim, value, .. } in &mut corrections {
        let sample = sheet.readings[aim.index(&sheet.head)];
        *value = moves.value((*value).into(), sample.into()) as i32;
    }
    corrections
}

/// In the order of [`OF_BOTH`].
fn of_both(alike: &Alike, is_refused: bool) -> [bool; 4] {
    let far = alike.apart();
    let is_turned = alike.points().any(|point| point.x.yes != point.y.yes);
    let is_far = alike.points().any(|point| point.rise().map(i64::abs) == Some(far));
    [far == 0, is_turned, far > 0 && is_far, is_refused]
}

/// In the order of [`OF_RAISED`].
fn of_raised(alike: &Alike) -> [bool; 2] {
    let is_turned = alike.points().any(|point| point.became_yes());
    let is_risen = alike.points().any(|point| point.x.margin < point.y.margin);
    [is_turned, is_risen]
}

/// Corrects a valid sheet by corrections that do not clash, and demands all that is to
/// be kept. Engine and tools are compared with nothing but themselves.
fn kept(
    engine: &dyn Engine,
    tools: &dyn Tools,
    random: &mut Random,
    words: &[u32],
    corrections: &[Correction],
) -> Result<Alike, Difference> {
    let mut in_another_order = corrections.to_vec();
    random.shuffle(&mut in_another_order);
    let mut correct = |words: &[u32], corrections: &[Correction]| {
        let list = correct::list(corrections);
        let given = Given::of(&[words, &list], words.len() + random.count(0, 9));
        written(tools, random, Tool::Correct, &given)
    };
    let corrected = correct(words, corrections)?;
    let again = correct(&corrected, corrections)?;
    let reordered = correct(words, &in_another_order)?;
    let checked = written_as_sent(words, &corrected, corrections)
        .and_then(|()| {
            demand(again == corrected, || "the same list once more changes words".into())
        })
        .and_then(|()| demand(reordered == corrected, || "the order of a list matters".into()));
    checked.map_err(|difference| on(difference, words, corrections, &corrected))?;
    let alike = Alike::judged(engine, random, [words.to_vec(), corrected])?;
    steadiness::demanded(&alike)?;
    Ok(alike)
}

fn on(
    difference: Difference,
    words: &[u32],
    corrections: &[Correction],
    corrected: &[u32],
) -> Difference {
    let [sheet, list, corrected] =
        [words, &correct::list(corrections), corrected].map(words::to_bytes);
    difference.on("sheet", &sheet).on("list", &list).on("sheet as it was corrected", &corrected)
}

/// Demands that as many words are written, that all at which nothing is aimed are the
/// sheet's, and that each other has a value that was sent for it.
fn written_as_sent(words: &[u32], corrected: &[u32], corrections: &[Correction]) -> Checked {
    let counts = (words.len(), corrected.len());
    demand(counts.0 == counts.1, || format!("unlike counts of words: {counts:?}"))?;
    let sheet = tool::valid(words).expect("a valid sheet");
    let sent: BTreeSet<(usize, u32)> =
        corrections.iter().map(|one| (one.aim.word_index(&sheet), one.words()[2])).collect();
    let aimed_at: BTreeSet<usize> = sent.iter().map(|(at, _)| *at).collect();
    let is_as_sent = |&at: &usize| {
        if aimed_at.contains(&at) {
            sent.contains(&(at, corrected[at]))
        } else {
            corrected[at] == words[at]
        }
    };
    match (0..words.len()).find(|at| !is_as_sent(at)) {
        Some(at) => Err(Difference::new(format!("word {at} is neither the sheet's nor sent"))),
        None => Ok(()),
    }
}

/// Whether both sheets are refused, where now and then too little is lent to either; they
/// must be decided alike.
fn is_refused_alike(
    engine: &dyn Engine,
    random: &mut Random,
    alike: &Alike,
) -> Result<bool, Difference> {
    let [words, corrected] = &alike.sheets;
    let mut case = Case::lend(random, words);
    match random.below(4) {
        0 => few_distances(random, &mut case),
        1 => short_answer(random, &mut case),
        _ => {}
    }
    let other = Case { sheet: words::to_bytes(corrected), ..case };
    let decision = decided_alike(engine, random, &case, &other)?;
    Ok(decision.given_back != 0)
}
