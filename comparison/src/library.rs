//! The engine's static library. Only the programs include this file, because
//! only they are linked with the library.

use comparison::tools::{Tool, Tools, Written};
use comparison::{Engine, Filled};

unsafe extern "C" {
    fn judge(
        sheet: *const u8,
        sheet_len: usize,
        distances: *mut u8,
        distances_len: usize,
        answer: *mut u8,
        answer_len: usize,
        result: *mut u8,
        result_len: usize,
    ) -> u64;
    fn lookup(answer: *const u8, answer_len: usize, line: u64, sample: u64, place: u64) -> u64;
    fn sheet_to_wide(
        sheet: *const u8,
        sheet_length: usize,
        output: *mut u8,
        output_length: usize,
        result: *mut u8,
        result_length: usize,
    ) -> u64;
    fn sheet_to_narrow(
        sheet: *const u8,
        sheet_length: usize,
        output: *mut u8,
        output_length: usize,
        result: *mut u8,
        result_length: usize,
    ) -> u64;
    fn correct_sheet(
        sheet: *const u8,
        sheet_length: usize,
        corrections: *const u8,
        corrections_length: usize,
        output: *mut u8,
        output_length: usize,
        result: *mut u8,
        result_length: usize,
    ) -> u64;
}

/// The library as an engine.
pub struct Library;

impl Engine for Library {
    fn judge(&self, sheet: &[u8], left: Filled) -> u64 {
        // SAFETY: slices are valid for their lengths, and borrows that are
        // exclusive do not overlap. No bytes may be lent as a null pointer.
        unsafe {
            judge(
                start(sheet),
                sheet.len(),
                start(left.distances).cast_mut(),
                left.distances.len(),
                start(left.answer).cast_mut(),
                left.answer.len(),
                start(left.result).cast_mut(),
                left.result.len(),
            )
        }
    }

    fn lookup(&self, answer: &[u8], line: u64, sample: u64, place: u64) -> u64 {
        // SAFETY: the slice is valid for its length.
        unsafe { lookup(start(answer), answer.len(), line, sample, place) }
    }
}

impl Tools for Library {
    fn run(&self, tool: Tool, inputs: &[&[u8]], left: Written) -> u64 {
        let (output, output_length) = (start(left.output).cast_mut(), left.output.len());
        let (result, result_length) = (start(left.result).cast_mut(), left.result.len());
        let (sheet, sheet_length) = (start(inputs[0]), inputs[0].len());
        // SAFETY: slices are valid for their lengths, and borrows that are
        // exclusive do not overlap. No bytes may be lent as a null pointer.
        unsafe {
            match tool {
                Tool::Convert(to) => {
                    let convert = if to.is_wide() { sheet_to_wide } else { sheet_to_narrow };
                    convert(sheet, sheet_length, output, output_length, result, result_length)
                }
                Tool::Correct => correct_sheet(
                    sheet,
                    sheet_length,
                    start(inputs[1]),
                    inputs[1].len(),
                    output,
                    output_length,
                    result,
                    result_length,
                ),
            }
        }
    }
}

/// Where bytes start; a host in C that lends none passes NULL.
fn start(bytes: &[u8]) -> *const u8 {
    if bytes.is_empty() {
        std::ptr::null()
    } else {
        bytes.as_ptr()
    }
}
