//! What differs, in words that lead to it.

use crate::tools::Tool;
use reference::generate::tools::Given;
use reference::generate::Case;

/// A difference between an engine and what it should have done.
#[derive(Debug)]
pub struct Difference {
    /// What it is.
    pub what: String,
    /// The bytes on which it was found, each with a name: a sheet, an answer.
    pub found_on: Vec<(String, Vec<u8>)>,
}

/// Nothing, or the difference that was found.
pub type Checked = Result<(), Difference>;

impl Difference {
    /// A difference that says this.
    pub fn new(what: impl Into<String>) -> Self {
        Difference { what: what.into(), found_on: Vec::new() }
    }

    /// The difference with bytes on which it was found.
    pub fn on(mut self, name: impl Into<String>, bytes: &[u8]) -> Self {
        self.found_on.push((name.into(), bytes.to_vec()));
        self
    }

    /// The difference with the case on which it was found.
    pub fn on_case(self, case: &Case) -> Self {
        let Case { sheet, distances, answer, result } = case;
        let name = format!(
            "sheet (bytes lent: {distances} of distances, {answer} of answer, {result} of result)"
        );
        self.on(name, sheet)
    }

    /// The difference with what was given to the tool at which it was found.
    pub fn on_given(self, tool: Tool, given: &Given) -> Self {
        let Given { inputs, output, result } = given;
        let lent = format!("bytes lent: {output} of output, {result} of result");
        inputs.iter().enumerate().fold(self, |difference, (index, input)| {
            difference.on(format!("input {index} of {tool:?} ({lent})"), input)
        })
    }
}

/// Demands the same number from an engine as from the implementation.
pub fn same_number(engine: u64, implementation: u64) -> Checked {
    demand(engine == implementation, || {
        format!("number: engine {engine}, implementation {implementation}")
    })
}

/// Demands something, or tells what was not so.
pub fn demand(condition: bool, otherwise: impl FnOnce() -> String) -> Checked {
    if condition {
        Ok(())
    } else {
        Err(Difference::new(otherwise()))
    }
}

/// Demands the same bytes; tells the first item that is not the same. Items
/// have so many bytes, lowest byte first, as words and distances do.
pub fn same_bytes(what: &str, item: usize, engine: &[u8], implementation: &[u8]) -> Checked {
    let pairs = engine.iter().zip(implementation);
    let Some(at) = pairs.clone().position(|(a, b)| a != b) else {
        let lengths = (engine.len(), implementation.len());
        return demand(lengths.0 == lengths.1, || format!("{what}: lengths {lengths:?}"));
    };
    let index = at / item;
    let told = |bytes: &[u8]| {
        let end = bytes.len().min((index + 1) * item);
        let digits = bytes[index * item..end].iter().rev().map(|byte| format!("{byte:02X}"));
        digits.collect::<String>()
    };
    Err(Difference::new(format!(
        "{what}, item {index}: engine {}, implementation {}",
        told(engine),
        told(implementation)
    )))
}
