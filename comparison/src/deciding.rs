//! Two sheets alike in every word but their samples, with as much lent to either,
//! are decided alike: both are accepted, or both are refused with the same number
//! and the same place. So whoever knows that a sheet is accepted knows it of the
//! sheet with samples raised.
//!
//! It holds of faulty sheets too, where a sample is every word that would be one
//! where one belongs, wherever it stands.

use crate::alike::with_samples;
use crate::difference::{demand, Checked, Difference};
use crate::judging::judged;
use crate::reached::{chosen, Reached};
use crate::Engine;
use reference::generate::random::Random;
use reference::generate::valid::Numbers;
use reference::generate::{case, valid, Case};
use reference::left::Left;
use reference::refusal::Fault;
use reference::words::{self, BYTES_PER_WORD};
use std::ops::RangeInclusive;

/// Networks are small: of what is said to an accepted sheet nothing is asked here.
const MOST_PLACES: usize = 6;

/// Now and then they may be cities.
const MOST_PLACES_OF_CITY: usize = 100;

/// Of a hundred samples so many are drawn anew: few, some or all.
const DRAWN_ANEW: [usize; 3] = [5, 40, 100];

/// The refusals that are told at a word, or where one is missing.
const AT_WORDS: RangeInclusive<u64> = Fault::HeadKind as u64..=Fault::End as u64;

/// The refusal of a wide head, which is told at a word too.
const AT_WIDE_HEAD: u64 = Fault::WideHead as u64;

/// Those that are told in the table or at the end, and so behind all samples of the
/// recording.
const BEHIND_SAMPLES: RangeInclusive<u64> = Fault::LineCount as u64..=Fault::End as u64;

/// What is looked for in sheets that are refused, beside their number.
const OF_REFUSED: [&str; 2] = [
    "refused in its lines or end, behind samples that changed",
    "refused for a sample where none belongs, which changed",
];

/// What a run must have reached, each with samples that changed.
pub fn labels() -> impl Iterator<Item = String> {
    let numbers = 0..=Fault::WideHead as u64;
    numbers.map(number_label).chain(OF_REFUSED.into_iter().map(label))
}

fn label(text: &str) -> String {
    format!("decided alike: {text}")
}

fn number_label(number: u64) -> String {
    label(&format!("number {number}"))
}

/// What an engine decides of a case.
#[derive(Clone, Copy, Debug, PartialEq, Eq)]
pub struct Decision {
    /// The number given back.
    pub given_back: u64,
    /// Number and place in the result, if 40 bytes were lent for it.
    told: Option<(u64, u64)>,
}

impl Decision {
    fn of(left: &Left) -> Self {
        let told = left.outcome().map(|outcome| (outcome.number, outcome.place));
        Decision { given_back: left.number, told }
    }
}

/// Judges a random case, to be accepted or refused, and the same with other samples.
pub fn check(engine: &dyn Engine, random: &mut Random, reached: &mut Reached) -> Checked {
    let x = any_case(random);
    let y = with_other_samples(random, &x);
    let decision = decided_alike(engine, random, &x, &y)?;
    for label in shown(&changed(&x.sheet, &y.sheet), decision) {
        reached.count(&label);
    }
    reached.count_layout("decided alike", &whole_words(&x.sheet).0);
    Ok(())
}

/// How two cases are decided that are alike but for samples.
pub fn decided_alike(
    engine: &dyn Engine,
    random: &mut Random,
    x: &Case,
    y: &Case,
) -> Result<Decision, Difference> {
    let of_x = decided(engine, random, x)?;
    let of_y = decided(engine, random, y)?;
    let alike =
        demand(of_x == of_y, || format!("decided unlike: {of_x:?}, with other samples {of_y:?}"));
    alike.map_err(|difference| difference.on_case(x).on_case(y))?;
    Ok(of_x)
}

/// A case as a seed's own is, now and then one that may be a city, or is.
fn any_case(random: &mut Random) -> Case {
    match random.below(100) {
        0..=2 => {
            let words = valid::city(random, MOST_PLACES_OF_CITY);
            Case::lend(random, &words)
        }
        3..=9 => case(random.bits(), MOST_PLACES_OF_CITY),
        _ => case(random.bits(), MOST_PLACES),
    }
}

fn decided(engine: &dyn Engine, random: &mut Random, case: &Case) -> Result<Decision, Difference> {
    let left = judged(engine, random, case).map_err(|difference| difference.on_case(case))?;
    Ok(Decision::of(&left))
}

/// The same case, but for samples: as much is lent, and bytes past the sheet's last
/// whole word stay.
fn with_other_samples(random: &mut Random, case: &Case) -> Case {
    let numbers = random.pick(&[Numbers::Ties, Numbers::Small, Numbers::Extreme, Numbers::Any]);
    let drawn_anew = random.pick(&DRAWN_ANEW);
    let (words, past) = whole_words(&case.sheet);
    let words = with_samples(&words, |_, number| {
        if random.chance(drawn_anew) {
            numbers.draw(random).into()
        } else {
            number
        }
    });
    Case { sheet: [&words::to_bytes(&words), past].concat(), ..*case }
}

/// The whole words of a sheet, and the bytes past them.
fn whole_words(sheet: &[u8]) -> (Vec<u32>, &[u8]) {
    let (whole, past) = sheet.as_chunks::<BYTES_PER_WORD>();
    (whole.iter().map(|&bytes| u32::from_le_bytes(bytes)).collect(), past)
}

/// The indices of the words in which two sheets differ.
fn changed(x: &[u8], y: &[u8]) -> Vec<usize> {
    let pairs = x.chunks(BYTES_PER_WORD).zip(y.chunks(BYTES_PER_WORD)).enumerate();
    pairs.filter(|(_, (x, y))| x != y).map(|(index, _)| index).collect()
}

/// The labels of two sheets that were decided alike, none if they are the same.
fn shown(changed: &[usize], decision: Decision) -> Vec<String> {
    let Some(&first_changed) = changed.first() else {
        return Vec::new();
    };
    let number = decision.given_back;
    let place = decision.told.map_or(0, |(_, place)| place as usize);
    let of_refused = [
        BEHIND_SAMPLES.contains(&number) && first_changed < place,
        (AT_WORDS.contains(&number) || number == AT_WIDE_HEAD) && changed.contains(&place),
    ];
    let of_refused = chosen(&OF_REFUSED, of_refused).map(label);
    std::iter::once(number_label(number)).chain(of_refused).collect()
}

#[cfg(test)]
mod tests {
    use super::*;
    use crate::Implementation;
    use reference::judge::Outcome;
    use reference::print::ANSWER_WORDS;
    use std::collections::BTreeSet;

    /// One place, four samples of 0 and a fifth too many, which is 10; two words of
    /// kind 4 with bit 27 set stand behind.
    const A_SAMPLE_TOO_MANY: [u32; 8] = [
        0x10101004, 0x40000000, 0x40000000, 0x40000000, 0x40000000, 0x40000000, 0x48000000,
        0x4FFFFFFF,
    ];

    /// The case of these words, with so many bytes more.
    fn case_of(words: &[u32], past: &[u8]) -> Case {
        let case = Case::of(words, ANSWER_WORDS);
        Case { sheet: [&case.sheet[..], past].concat(), ..case }
    }

    /// Over many draws each sample changes, and nothing else does.
    #[test]
    fn samples_alone_change() {
        let mut random = Random::new(1);
        for past in [&[][..], &[0x40], &[0, 0, 0x40]] {
            let x = case_of(&A_SAMPLE_TOO_MANY, past);
            let draws = (0..100).map(|_| with_other_samples(&mut random, &x));
            let changes = draws.flat_map(|y| {
                assert_eq!(y.sheet.len(), x.sheet.len());
                assert_eq!(Case { sheet: x.sheet.clone(), ..y }, x);
                changed(&x.sheet, &y.sheet)
            });
            assert_eq!(changes.collect::<BTreeSet<_>>(), BTreeSet::from([1, 2, 3, 4, 5]));
        }
    }

    #[test]
    fn bytes_past_the_words_are_none_of_them() {
        assert_eq!(whole_words(&[1, 0, 0, 0xF0, 7, 8]), (vec![0xF000_0001], &[7, 8][..]));
        assert_eq!(whole_words(&[7]), (vec![], &[7][..]));
    }

    /// The number given back, and number and place of the result, each count.
    #[test]
    fn all_of_a_decision_is_taken() {
        let left = |number: u64, outcome: Outcome| Left {
            number,
            distances: vec![],
            answer: vec![],
            result: outcome.to_bytes().to_vec(),
        };
        let outcome = Outcome { number: 10, place: 5, ..Outcome::default() };
        let decision = Decision::of(&left(10, outcome));
        assert_eq!(decision, Decision { given_back: 10, told: Some((10, 5)) });
        assert_ne!(decision, Decision::of(&left(9, outcome)));
        assert_ne!(decision, Decision::of(&left(10, Outcome { number: 9, ..outcome })));
        assert_ne!(decision, Decision::of(&left(10, Outcome { place: 6, ..outcome })));
    }

    /// The texts of a sheet of these words in which the words at some indices changed.
    fn shown_of(words: &[u32], past: &[u8], changed: &[usize]) -> Vec<String> {
        let case = case_of(words, past);
        shown(changed, decided(&Implementation, &mut Random::new(1), &case).expect("a decision"))
    }

    /// The same sheet is refused for its sample too many, with 9 where a sample
    /// before it has bit 27 set, and with 16 where a byte is too many as well.
    #[test]
    fn what_decisions_show() {
        let [behind, misplaced] = OF_REFUSED.map(label);
        let of_10 = |changed: &[usize]| shown_of(&A_SAMPLE_TOO_MANY, &[], changed);
        assert!(of_10(&[]).is_empty());
        assert_eq!(of_10(&[2]), [number_label(10), behind.clone()]);
        assert_eq!(of_10(&[5]), [number_label(10), misplaced.clone()]);
        assert_eq!(of_10(&[1, 5]), [number_label(10), behind, misplaced]);
        let mut words = A_SAMPLE_TOO_MANY;
        words[3] |= words::BIT_27;
        assert_eq!(shown_of(&words, &[], &[1, 5]), [number_label(9)]);
        assert_eq!(shown_of(&words, &[0x40], &[0, 1]), [number_label(16)]);
    }
}
