//! Tools that tell what they should, but leave other bytes, or take lengths that cannot
//! be.

use super::tools::{self, Only};
use crate::tools::{Tool, Tools, Written};
use crate::Implementation;
use reference::tool::{Outcome, RESULT_BYTES};
use reference::words::BYTES_PER_WORD;

/// Bytes of the output as they were lent, and as they are left.
type Spoil = fn(Outcome, &[u8], &mut [u8]);

/// Right, but for the output's bytes.
struct Spoilt(Spoil);

impl Tools for Spoilt {
    fn run(&self, tool: Tool, inputs: &[&[u8]], left: Written) -> u64 {
        let Written { output, result } = left;
        let before = output.to_vec();
        let lent = Written { output: &mut *output, result: &mut *result };
        let number = Implementation.run(tool, inputs, lent);
        let is_lent = Outcome::from_bytes(result);
        (self.0)(is_lent.unwrap_or(Outcome { number, ..Outcome::default() }), &before, output);
        number
    }
}

/// Converters, and what corrects sheets.
const CONVERTERS: fn(Tool) -> bool = |tool| tool != Tool::Correct;
const CORRECTORS: fn(Tool) -> bool = |tool| tool == Tool::Correct;

/// Caught if converters alone are wrong, and if what corrects sheets is.
#[track_caller]
fn assert_caught(tools: &dyn Tools) {
    for are_wrong in [CONVERTERS, CORRECTORS] {
        tools::assert_caught(&Only { are_wrong, tools });
    }
}

fn left_dirty<const NUMBER: u64>(outcome: Outcome, before: &[u8], output: &mut [u8]) {
    if outcome.number == NUMBER {
        output.copy_from_slice(before);
    }
}

/// Of each number alone.
#[test]
fn an_output_left_dirty_on_refusal() {
    for spoil in [left_dirty::<14>, left_dirty::<15>, left_dirty::<16>] {
        assert_caught(&Spoilt(spoil));
    }
    let of_one = [
        (CONVERTERS, left_dirty::<18> as Spoil),
        (CORRECTORS, left_dirty::<19>),
        (CORRECTORS, left_dirty::<20>),
    ];
    for (are_wrong, spoil) in of_one {
        tools::assert_caught(&Only { are_wrong, tools: &Spoilt(spoil) });
    }
}

#[test]
fn words_past_those_written_left_dirty() {
    assert_caught(&Spoilt(|outcome, before, output| {
        let written = outcome.words as usize * BYTES_PER_WORD;
        if outcome.number == 0 {
            output[written..].copy_from_slice(&before[written..]);
        }
    }));
}

/// Where 16 is told of the output, it has some.
#[test]
fn bytes_past_the_last_whole_word_left_dirty() {
    assert_caught(&Spoilt(|_, before, output| {
        let whole = output.len() / BYTES_PER_WORD * BYTES_PER_WORD;
        output[whole..].copy_from_slice(&before[whole..]);
    }));
}

/// Words that fit are written before it is known that others do not.
#[test]
fn a_short_output_left_begun() {
    struct Begun;
    impl Tools for Begun {
        fn run(&self, tool: Tool, inputs: &[&[u8]], left: Written) -> u64 {
            let Written { output, result } = left;
            let number = Implementation.run(tool, inputs, Written { output: &mut *output, result });
            if number == 15 {
                output.iter_mut().zip(inputs[0]).for_each(|(place, &byte)| *place = byte);
            }
            number
        }
    }
    assert_caught(&Begun);
}

/// Takes other bytes than were handed over or lent.
struct Rounded(fn(&mut Vec<&[u8]>, &mut Written));

impl Tools for Rounded {
    fn run(&self, tool: Tool, inputs: &[&[u8]], mut left: Written) -> u64 {
        let mut inputs = inputs.to_vec();
        (self.0)(&mut inputs, &mut left);
        Implementation.run(tool, &inputs, left)
    }
}

/// The bytes of whole words.
fn whole(length: usize) -> usize {
    length / BYTES_PER_WORD * BYTES_PER_WORD
}

#[test]
fn odd_bytes_of_the_sheet_passed_over() {
    assert_caught(&Rounded(|inputs, _| inputs[0] = &inputs[0][..whole(inputs[0].len())]));
}

#[test]
fn odd_bytes_of_the_list_passed_over() {
    let rounded = Rounded(|inputs, _| inputs[1] = &inputs[1][..whole(inputs[1].len())]);
    tools::assert_caught(&Only { are_wrong: CORRECTORS, tools: &rounded });
}

#[test]
fn odd_bytes_of_the_output_passed_over() {
    assert_caught(&Rounded(|_, left| {
        let output = std::mem::take(&mut left.output);
        let length = whole(output.len());
        left.output = &mut output[..length];
    }));
}

/// As many bytes as the engine's result has, or any that are enough.
#[test]
fn a_longer_result_passed_over() {
    assert_caught(&Rounded(|_, left| {
        let result = std::mem::take(&mut left.result);
        let length = result.len().min(RESULT_BYTES);
        left.result = &mut result[..length];
    }));
}

/// What is right, but for a number that is told in the result alone or nowhere.
struct Untold(fn(u64, &mut [u8]) -> u64);

impl Tools for Untold {
    fn run(&self, tool: Tool, inputs: &[&[u8]], left: Written) -> u64 {
        let Written { output, result } = left;
        let number = Implementation.run(tool, inputs, Written { output, result: &mut *result });
        (self.0)(number, result)
    }
}

#[test]
fn a_number_that_is_not_given_back() {
    assert_caught(&Untold(|_, _| 0));
}

#[test]
fn a_number_that_is_not_in_the_result() {
    assert_caught(&Untold(|number, result| {
        result.iter_mut().take(8).for_each(|byte| *byte = 0);
        number
    }));
}

/// A result of another length is zero.
#[test]
fn a_result_begun_where_it_is_too_short() {
    assert_caught(&Untold(|number, result| {
        if (8..RESULT_BYTES).contains(&result.len()) {
            result[0] = number as u8;
        }
        number
    }));
}
