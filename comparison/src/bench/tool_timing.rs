//! How long a tool takes, beside the implementation and beside a plain copy.

use super::timing::RUNS;
use crate::tools::{Tool, Tools, Written};
use crate::Implementation;
use reference::tool::RESULT_BYTES;
use std::hint::black_box;
use std::time::{Duration, Instant};

/// The best times for one call.
#[derive(Clone, Copy)]
pub struct Times {
    /// Of the engine's tool.
    pub engine: Duration,
    /// Of the implementation's.
    pub implementation: Duration,
    /// Of copying as many bytes as the first input has.
    pub copy: Duration,
}

/// Times both tools and a copy on the same inputs, run by run in turn.
///
/// # Panics
///
/// If the engine's tool does not leave what is expected, or if a tool refuses.
pub fn timed(tools: &dyn Tools, tool: Tool, inputs: &[&[u8]], expected: &[u8]) -> Times {
    let mut output = vec![0; expected.len()];
    let [mut engine, mut implementation, mut copy] = [Duration::MAX; 3];
    for _ in 0..RUNS {
        engine = engine.min(run(tools, tool, inputs, &mut output));
        assert!(output == expected, "the tools do not agree");
        implementation = implementation.min(run(&Implementation, tool, inputs, &mut output));
        copy = copy.min(copied(inputs[0]));
    }
    Times { engine, implementation, copy }
}

fn run(tools: &dyn Tools, tool: Tool, inputs: &[&[u8]], output: &mut [u8]) -> Duration {
    let mut result = [0; RESULT_BYTES];
    let start = Instant::now();
    let number = tools.run(tool, inputs, Written { output, result: &mut result });
    let taken = start.elapsed();
    assert_eq!(number, 0, "what is right was refused");
    taken
}

/// How long it takes to copy bytes to where others have been before.
fn copied(sheet: &[u8]) -> Duration {
    let mut output = vec![0xFF; sheet.len()];
    let start = Instant::now();
    black_box(&mut output).copy_from_slice(black_box(sheet));
    let taken = start.elapsed();
    black_box(output);
    taken
}
