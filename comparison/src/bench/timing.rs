//! How long an engine takes.

use crate::{Engine, Filled, Implementation};
use reference::generate::Case;
use reference::layout::ENOUGH_DISTANCES;
use reference::sheet::check;
use std::time::{Duration, Instant};

/// Every time is the best of so many runs: other work on the machine can only
/// make a run slower.
pub const RUNS: usize = 5;

/// No more runs are made of a sheet that has taken so long.
const LONG_ENOUGH: Duration = Duration::from_secs(4);

/// Both engines' best times for one sheet.
#[derive(Clone, Copy)]
pub struct Times {
    /// Of the engine.
    pub engine: Duration,
    /// Of the implementation.
    pub implementation: Duration,
    /// The rounds of the result.
    pub rounds: u64,
}

impl Times {
    /// The engine's time as a share of the implementation's.
    pub fn share(&self) -> f64 {
        self.engine.as_secs_f64() / self.implementation.as_secs_f64()
    }
}

/// Lent buffers that serve all runs of a sheet.
struct Buffers {
    distances: Vec<u8>,
    answer: Vec<u8>,
    result: Vec<u8>,
}

/// Times both engines on a sheet, run by run in turn, so that both see the same
/// machine.
///
/// # Panics
///
/// If the sheet is not valid, or if the engines do not agree on it.
pub fn timed(engine: &dyn Engine, words: &[u32]) -> Times {
    let sheet = check(words, ENOUGH_DISTANCES).expect("a valid sheet");
    let case = Case::of(words, reference::answer::needed(&sheet));
    let mut buffers = Buffers {
        distances: vec![0; case.distances],
        answer: vec![0; case.answer],
        result: vec![0; case.result],
    };
    let mut times = Times { engine: Duration::MAX, implementation: Duration::MAX, rounds: 0 };
    let start = Instant::now();
    for _ in (0..RUNS).take_while(|&run| run == 0 || start.elapsed() < LONG_ENOUGH) {
        times.engine = times.engine.min(run(engine, &case.sheet, &mut buffers));
        let answer = buffers.answer.clone();
        let result = buffers.result.clone();
        let taken = run(&Implementation, &case.sheet, &mut buffers);
        times.implementation = times.implementation.min(taken);
        assert!(answer == buffers.answer && result == buffers.result, "the engines do not agree");
    }
    let outcome = reference::judge::Outcome::from_bytes(&buffers.result);
    Times { rounds: outcome.map_or(0, |outcome| outcome.rounds), ..times }
}

fn run(engine: &dyn Engine, sheet: &[u8], lent: &mut Buffers) -> Duration {
    let left = Filled {
        distances: &mut lent.distances,
        answer: &mut lent.answer,
        result: &mut lent.result,
    };
    let start = Instant::now();
    let number = engine.judge(sheet, left);
    let taken = start.elapsed();
    assert_eq!(number, 0, "a valid sheet was refused");
    taken
}
