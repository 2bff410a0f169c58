//! A run of the comparison: a seed after the other, everything it determines.

use crate::difference::Checked;
use crate::printing::{self, Printer};
use crate::reached::Reached;
use crate::tools::Tools;
use crate::{converting, correcting, deciding, judging, laws, lookups, mirror, raising};
use crate::{steadiness, Engine};
use reference::generate::random::Random;
use reference::generate::{aim, case, largest, Case};
use reference::judge::BYTES_PER_DISTANCE;
use reference::layout::Front;
use reference::page;
use reference::print::ANSWER_WORDS;
use reference::{words, worked};

/// Networks have at most so many places, but for those of [`Comparison::largest`]:
/// more than 8 bits hold, and few enough for thousands of cities.
const MOST_PLACES: usize = 300;

/// One seed in so many also tries steadiness, raised samples, laws, time turned
/// round, decisions that do not depend on samples, sheets there and back, and what
/// correcting keeps.
const PAIRS_EVERY: u64 = 8;

/// One seed in so many is also given to the printing program.
const PRINTS_EVERY: u64 = 16;

/// One seed in so many also judges sheets of a million words.
const LARGEST_EVERY: u64 = 1 << 13;

/// One seed in so many also judges sheets of 1,024 places.
const CITY_EVERY: u64 = 1 << 12;

/// By so many lists a sheet of 1,024 places is corrected.
const LISTS_OF_CITY: usize = 6;

/// The refusals that are aimed at the table of a sheet of a million words.
const OF_TABLE: [u64; 5] = [10, 11, 12, 13, 14];

/// What is compared, and what has been reached so far.
pub struct Comparison<'a> {
    engine: &'a dyn Engine,
    tools: &'a dyn Tools,
    printer: Option<&'a dyn Printer>,
    /// The counts.
    pub reached: Reached,
}

impl<'a> Comparison<'a> {
    /// A comparison of an engine, of tools, and of a printer if there is one.
    pub fn new(
        engine: &'a dyn Engine,
        tools: &'a dyn Tools,
        printer: Option<&'a dyn Printer>,
    ) -> Self {
        let mut reached = Reached::default();
        if printer.is_some() {
            reached.expect(printing::labels());
        }
        Comparison { engine, tools, printer, reached }
    }

    /// Compares everything that a seed determines.
    pub fn seed(&mut self, seed: u64) -> Checked {
        let case = case(seed, MOST_PLACES);
        // Another stream than the one that made the case.
        let mut random = Random::new(!seed);
        self.judge(&mut random, &case)?;
        self.tools(seed, &case)?;
        if seed.is_multiple_of(PAIRS_EVERY) {
            steadiness::check(self.engine, &mut random, &mut self.reached)?;
            raising::check(self.engine, &mut random, &mut self.reached)?;
            laws::check(self.engine, &mut random, &mut self.reached)?;
            mirror::check(self.engine, &mut random, &mut self.reached)?;
            deciding::check(self.engine, &mut random, &mut self.reached)?;
        }
        if seed.is_multiple_of(PRINTS_EVERY) {
            self.print(&mut random, &case)?;
        }
        if seed.is_multiple_of(LARGEST_EVERY) {
            self.largest(&mut random)?;
        }
        if seed % CITY_EVERY == CITY_EVERY / 2 {
            self.largest_city(&mut random)?;
        }
        Ok(())
    }

    /// The sheets of the page for newcomers and those worked out beside it. The
    /// implementation's own tests hold them to what they say, so here it is enough
    /// to be the same.
    pub fn worked(&mut self) -> Checked {
        let mut random = Random::new(0);
        correcting::compare_worked(self.tools, &mut random, &mut self.reached)?;
        let on_page = page::SHEETS.map(page::words);
        for words in on_page.iter().map(Vec::as_slice).chain(worked::SHEETS) {
            let case = Case::of(words, ANSWER_WORDS);
            self.judge(&mut random, &case)?;
            let (tools, reached) = (self.tools, &mut self.reached);
            converting::compare_both_ways(tools, &mut random, words, reached)?;
            if let Some(printer) = self.printer {
                printing::compare(printer, &case.sheet, &mut self.reached)?;
            }
        }
        Ok(())
    }

    /// The case itself, and lookups in what it leaves.
    fn judge(&mut self, random: &mut Random, case: &Case) -> Checked {
        let left = judging::compared(self.engine, random, case)?;
        self.reached.count_case(case, &left);
        lookups::compare(self.engine, random, &left.answer, &mut self.reached)?;
        match left.whole_answer() {
            Some(answer) if random.chance(30) => {
                lookups::all_words(self.engine, &left.answer, &answer)
            }
            _ => Ok(()),
        }
    }

    /// What a seed determines of tools alone.
    pub fn tools_of(&mut self, seed: u64) -> Checked {
        self.tools(seed, &case(seed, MOST_PLACES))
    }

    fn tools(&mut self, seed: u64, case: &Case) -> Checked {
        self.convert(seed, case)?;
        self.correct(seed, case)
    }

    /// The case's sheet to both layouts, and sometimes another there and back.
    fn convert(&mut self, seed: u64, case: &Case) -> Checked {
        // A stream of its own: what is judged does not depend on what is converted.
        let mut random = Random::new(seed.reverse_bits());
        converting::compare(self.tools, &mut random, &case.sheet, &mut self.reached)?;
        if seed.is_multiple_of(PAIRS_EVERY) {
            converting::check(self.engine, self.tools, &mut random, &mut self.reached)?;
        }
        Ok(())
    }

    /// The case's sheet by a list of corrections, and sometimes another by one that is
    /// right.
    fn correct(&mut self, seed: u64, case: &Case) -> Checked {
        // A stream of its own, for the same reason.
        let mut random = Random::new((!seed).reverse_bits());
        correcting::compare(self.tools, &mut random, &case.sheet, &mut self.reached)?;
        if seed.is_multiple_of(PAIRS_EVERY) {
            correcting::check(self.engine, self.tools, &mut random, &mut self.reached)?;
        }
        Ok(())
    }

    /// A sheet of 64 places with signals and samples at their limits, and the same
    /// sheet with faults behind its million samples and with a short answer. It is
    /// taken to the other layout and back as well, and corrected by long lists.
    pub fn largest(&mut self, random: &mut Random) -> Checked {
        let words = largest::sheet(random);
        self.whole_and_struck(random, &words)?;
        converting::compare_both_ways(self.tools, random, &words, &mut self.reached)?;
        correcting::compare_long_lists(self.tools, random, &words, &mut self.reached)
    }

    /// A sheet of 1,024 places, as it is, with a distance too few, with a short
    /// answer, with faults in its table, taken to both layouts, and corrected.
    pub fn largest_city(&mut self, random: &mut Random) -> Checked {
        let words = largest::city(random);
        let case = Case::lend(random, &words);
        let needed = Front::told(&words).distances_needed() * BYTES_PER_DISTANCE;
        self.judge(random, &Case { distances: needed - BYTES_PER_DISTANCE, ..case })?;
        self.whole_and_struck(random, &words)?;
        let sheet = words::to_bytes(&words);
        converting::compare(self.tools, random, &sheet, &mut self.reached)?;
        for _ in 0..LISTS_OF_CITY {
            correcting::compare(self.tools, random, &sheet, &mut self.reached)?;
        }
        Ok(())
    }

    /// A valid sheet, the same with a short answer, and with faults in its table.
    fn whole_and_struck(&mut self, random: &mut Random, words: &[u32]) -> Checked {
        let mut case = Case::lend(random, words);
        self.judge(random, &case)?;
        aim::lent::short_answer(random, &mut case);
        self.judge(random, &case)?;
        for number in OF_TABLE {
            if let Some(struck) = aim::struck_table(random, number, words) {
                let case = Case::lend(random, &struck);
                self.judge(random, &case)?;
            }
        }
        Ok(())
    }

    /// The case's bytes, and sometimes a sheet at a limit, in print.
    fn print(&mut self, random: &mut Random, case: &Case) -> Checked {
        let Some(printer) = self.printer else {
            return Ok(());
        };
        printing::compare(printer, &case.sheet, &mut self.reached)?;
        if random.chance(5) {
            printing::compare_limit(printer, random, &mut self.reached)?;
        }
        Ok(())
    }
}
