//! The tools of the library, which write words without judging, and one call of a
//! tool by an engine and by the implementation.

use crate::difference::{demand, same_bytes, same_number, Checked, Difference};
use crate::lent::Lent;
use crate::Implementation;
use reference::convert::convert;
use reference::correct_sheet;
use reference::generate::random::Random;
use reference::generate::tools::Given;
use reference::layout::Layout;
use reference::numbers::BYTES_PER_NUMBER;
use reference::tool::Left;
use reference::words::BYTES_PER_WORD;

/// A tool.
#[derive(Clone, Copy, Debug, PartialEq, Eq)]
pub enum Tool {
    /// Takes a sheet, its one input, to a layout.
    Convert(Layout),
    /// Writes a sheet with samples replaced by a list of corrections, its second input.
    Correct,
}

/// The buffers that are lent for a tool to fill.
pub struct Written<'a> {
    /// The output.
    pub output: &'a mut [u8],
    /// The result.
    pub result: &'a mut [u8],
}

/// What a host reaches beside the engine: the tools, over bytes.
pub trait Tools {
    /// Runs a tool on its inputs into lent buffers and gives the number.
    fn run(&self, tool: Tool, inputs: &[&[u8]], left: Written) -> u64;
}

impl Tools for Implementation {
    fn run(&self, tool: Tool, inputs: &[&[u8]], left: Written) -> u64 {
        let Written { output, result } = left;
        match tool {
            Tool::Convert(layout) => convert(layout, inputs[0], output, result),
            Tool::Correct => correct_sheet(inputs[0], inputs[1], output, result),
        }
    }
}

/// What a tool leaves in dirty buffers. It must write nothing beside what is lent,
/// and nothing into its inputs.
pub fn left_by(
    tools: &dyn Tools,
    random: &mut Random,
    tool: Tool,
    given: &Given,
) -> Result<Left, Difference> {
    let inputs: Vec<Lent> = given.inputs.iter().map(|bytes| Lent::holding(random, bytes)).collect();
    let mut output = Lent::dirty(random, given.output);
    let mut result = Lent::dirty(random, given.result);
    let lists: Vec<&[u8]> = inputs.iter().map(Lent::bytes).collect();
    let left = Written { output: output.bytes_mut(), result: result.bytes_mut() };
    let number = tools.run(tool, &lists, left);
    let is_unwritten = lists.iter().zip(&given.inputs).all(|(lent, input)| lent == input);
    demand(is_unwritten, || "an input was written".into())?;
    let is_guarded = inputs.iter().chain([&output, &result]).all(Lent::is_guarded);
    demand(is_guarded, || "bytes outside what is lent were written".into())?;
    Ok(Left { number, output: output.bytes().to_vec(), result: result.bytes().to_vec() })
}

/// Runs a tool of both; every byte and the number must be the same.
pub fn compared(
    tools: &dyn Tools,
    random: &mut Random,
    tool: Tool,
    given: &Given,
) -> Result<Left, Difference> {
    let both = left_by(tools, random, tool, given).and_then(|left| {
        same(&left, &left_by(&Implementation, random, tool, given)?)?;
        Ok(left)
    });
    both.map_err(|difference| difference.on_given(tool, given))
}

/// The words that a tool writes of what it must not refuse.
pub fn written(
    tools: &dyn Tools,
    random: &mut Random,
    tool: Tool,
    given: &Given,
) -> Result<Vec<u32>, Difference> {
    let left = left_by(tools, random, tool, given).and_then(|left| {
        demand(left.number == 0, || format!("a valid sheet was refused with {}", left.number))?;
        Ok(left)
    });
    left.map(|left| left.written()).map_err(|difference| difference.on_given(tool, given))
}

/// Demands the same number and the same bytes.
fn same(left: &Left, right: &Left) -> Checked {
    same_number(left.number, right.number)?;
    same_bytes("result", BYTES_PER_NUMBER, &left.result, &right.result)?;
    same_bytes("output", BYTES_PER_WORD, &left.output, &right.output)
}
