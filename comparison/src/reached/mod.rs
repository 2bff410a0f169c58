//! What a run has reached: every refusal number and where it struck, every code,
//! the limits, the kinds of verdicts. A run that has not seen them all has not
//! compared what it should.

mod accepted;
mod called;
mod converted;
mod corrected;
mod extents;
mod layouts;
mod looked_up;
mod no_sample;
pub mod one_way;
mod reading;
mod refused;
mod roads_refused;
mod runs;
mod sent;
mod setting;
mod surrounds;
mod wide_looked_up;
mod wide_refused;

pub use layouts::with_one_way;
pub use looked_up::LookedUp;

use crate::laws::LAWS;
use crate::{converting, correcting, deciding, mirror, raising, steadiness};
use reference::generate::tools::Given;
use reference::generate::Case;
use reference::layout::Layout;
use reference::left::Left;
use reference::sheet::Sheet;
use reference::{tool, words};
use std::collections::HashMap;

/// Counts by label. All labels are known from the start, in the order they are
/// printed in.
pub struct Reached {
    labels: Vec<String>,
    counts: HashMap<String, u64>,
}

impl Default for Reached {
    fn default() -> Self {
        let numbers = (0..=17).map(|number| format!("number {number}"));
        let laws = LAWS.iter().map(|(name, _)| format!("law: {name}"));
        let labels = numbers
            .chain(refused::labels())
            .chain(accepted::labels())
            .chain(looked_up::labels())
            .chain(laws)
            .chain(mirror::labels())
            .chain(steadiness::labels())
            .chain(raising::labels())
            .chain(deciding::labels())
            .chain(layouts::labels_of_checks())
            .chain(converted::labels())
            .chain(converting::labels())
            .chain(corrected::labels())
            .chain(correcting::labels());
        Reached::of(labels.collect())
    }
}

impl Reached {
    fn of(labels: Vec<String>) -> Self {
        let counts = labels.iter().map(|label| (label.clone(), 0)).collect();
        Reached { labels, counts }
    }

    /// Asks for more labels.
    pub fn expect(&mut self, labels: Vec<String>) {
        self.counts.extend(labels.iter().map(|label| (label.clone(), 0)));
        self.labels.extend(labels);
    }

    /// Counts a label.
    ///
    /// # Panics
    ///
    /// On a label that nobody asked for.
    pub fn count(&mut self, label: &str) {
        let count = self.counts.get_mut(label);
        *count.unwrap_or_else(|| panic!("no label {label:?}")) += 1;
    }

    /// Counts all that a judged case shows.
    pub fn count_case(&mut self, case: &Case, left: &Left) {
        self.count(&format!("number {}", left.number));
        let words = words::from_bytes(&case.sheet).unwrap_or_default();
        let place = left.outcome().map_or(0, |outcome| outcome.place as usize);
        let labels = match left.number {
            0 => accepted::shown(&words, case, left),
            number => refused::shown(&words, case, number, place),
        };
        for label in labels {
            self.count(&label);
        }
    }

    /// Counts all that a call of the converter shows.
    pub fn count_converted(&mut self, to: Layout, given: &Given, left: &tool::Left) {
        converted::shown(to, given, left).iter().for_each(|label| self.count(label));
    }

    /// Counts all that a call shows which corrects a sheet.
    pub fn count_corrected(&mut self, given: &Given, left: &tool::Left) {
        corrected::shown(given, left).iter().for_each(|label| self.count(label));
    }

    /// Counts the layout of a sheet that a check beside judging was tried on, and
    /// whether some of its roads run one way.
    pub fn count_layout(&mut self, check: &str, words: &[u32]) {
        layouts::shown_by_check(check, words).for_each(|label| self.count(&label));
    }

    /// A row for each label.
    pub fn rows(&self) -> String {
        let row = |label: &String| format!("{:>10}  {label}\n", self.counts[label]);
        self.labels.iter().map(row).collect()
    }

    /// The labels that were not reached.
    pub fn missed(&self) -> Vec<&str> {
        let missed = self.labels.iter().filter(|label| self.counts[*label] == 0);
        missed.map(String::as_str).collect()
    }
}

/// Larger sheets are not looked at closely: there are enough small ones.
const MOST_PLACES: usize = 8;
const MOST_SAMPLES: usize = 8;

/// Whether all that a sheet's lines do is done once more in no time.
fn is_small(sheet: &Sheet) -> bool {
    sheet.head.places <= MOST_PLACES && sheet.head.samples <= MOST_SAMPLES
}

/// The texts of which it is said that they are shown.
pub fn chosen<const N: usize>(
    texts: &'static [&'static str; N],
    shown: [bool; N],
) -> impl Iterator<Item = &'static str> {
    texts.iter().zip(shown).filter(|(_, shown)| *shown).map(|(text, _)| *text)
}
