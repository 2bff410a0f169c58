//! The lines of the table: their fields, their parameters, their extents.

use super::reader::Reader;
use super::{Bounds, Extent, Head, Line, Operator, Reach, LAST_CODE, MOST_LINES};
use crate::refusal::{Fault, Refusal};
use crate::words::{self, kinds};

/// "Lines of the table, 1 to 64, numbered from 0." The table ends at the first
/// word of another kind; the end's check sees to that word.
pub fn lines(reader: &mut Reader, head: &Head) -> Result<Vec<Line>, Refusal> {
    let mut lines = Vec::new();
    while let Some(word) = reader.peek(kinds::LINE) {
        reader.require(lines.len() < MOST_LINES, Fault::LineCount)?;
        let line = line(reader, word, head, &lines)?;
        lines.push(line);
    }
    reader.require(!lines.is_empty(), Fault::LineCount)?;
    Ok(lines)
}

/// One line: its word (11), its parameters (12), and only then whether it has a
/// sample (13), which is told at the line word.
fn line(reader: &mut Reader, word: u32, head: &Head, earlier: &[Line]) -> Result<Line, Refusal> {
    let place = reader.place();
    let fields = Fields::of(word);
    reader.require(fields.fit(head, earlier), Fault::LineWord)?;
    reader.pass();
    let operator = operator(reader, fields)?;
    let extent = extent(&operator, head, earlier);
    if extent.is_empty() {
        return Err(Refusal::new(Fault::LineLength, place));
    }
    Ok(Line { operator, extent })
}

/// "Kind 5: bits 27..20 code, 19..10 left, 9..0 right."
#[derive(Clone, Copy)]
struct Fields {
    code: u32,
    left: usize,
    right: usize,
}

/// What a field of a line word stands for.
enum Role {
    /// "An unused field is zero."
    Unused,
    /// The number of a signal, below v.
    Signal,
    /// "Operands are numbers of earlier lines."
    Operand,
}

impl Fields {
    fn of(word: u32) -> Self {
        Fields {
            code: words::field(word, 27, 20),
            left: words::field(word, 19, 10) as usize,
            right: words::field(word, 9, 0) as usize,
        }
    }

    /// Whether the code is known and each field suits its role.
    fn fit(self, head: &Head, earlier: &[Line]) -> bool {
        let fits = |role: Role, field: usize| match role {
            Role::Unused => field == 0,
            Role::Signal => field < head.signals,
            Role::Operand => field < earlier.len(),
        };
        let (left, right) = self.roles();
        self.code <= LAST_CODE && fits(left, self.left) && fits(right, self.right)
    }

    fn roles(self) -> (Role, Role) {
        match self.code {
            1 | 2 => (Role::Signal, Role::Unused),
            3 | 6 | 9 | 10 | 11 | 13 | 14 => (Role::Operand, Role::Unused),
            4 | 5 | 7 | 8 | 12 | 15 => (Role::Operand, Role::Operand),
            _ => (Role::Unused, Role::Unused),
        }
    }
}

/// The operator of a line word that fits, with the parameters that follow it.
fn operator(reader: &mut Reader, fields: Fields) -> Result<Operator, Refusal> {
    let Fields { code, left, right } = fields;
    Ok(match code {
        1 => Operator::AtLeast { signal: left, constant: constant(reader)? },
        2 => Operator::AtMost { signal: left, constant: constant(reader)? },
        3 => Operator::Not { left },
        4 => Operator::And { left, right },
        8 => Operator::Or { left, right },
        5..=7 | 9..=15 => bounded(fields, bounds(reader)?),
        _ => Operator::True,
    })
}

/// The operator of a code that is followed by bounds.
fn bounded(fields: Fields, bounds: Bounds) -> Operator {
    let Fields { code, left, right } = fields;
    match code {
        5 => Operator::Until { left, right, bounds },
        6 => Operator::Somewhere { left, bounds },
        7 => Operator::Surround { left, right, bounds },
        9 => Operator::Eventually { left, bounds },
        10 => Operator::Always { left, bounds },
        11 => Operator::Everywhere { left, bounds },
        12 => Operator::Since { left, right, bounds },
        13 => Operator::Once { left, bounds },
        14 => Operator::Historically { left, bounds },
        _ => Operator::SurroundOrIsland { left, right, bounds },
    }
}

/// "Codes 1 and 2 are followed by kind 8, a constant laid out as a sample."
fn constant(reader: &mut Reader) -> Result<i32, Refusal> {
    let word = reader.expect(kinds::CONSTANT, Fault::Parameter)?;
    reader.require(word & words::BIT_27 == 0, Fault::Parameter)?;
    reader.pass();
    Ok(words::signed27(word))
}

/// Codes 5, 6, 7 and 9 to 15 "are followed by kind 6, the lower bound, and kind
/// 7, the upper, each 28 bits, lower at most upper".
fn bounds(reader: &mut Reader) -> Result<Bounds, Refusal> {
    let lower = words::payload(reader.expect(kinds::LOWER, Fault::Parameter)?);
    reader.pass();
    let upper = words::payload(reader.expect(kinds::UPPER, Fault::Parameter)?);
    reader.require(lower <= upper, Fault::Parameter)?;
    reader.pass();
    Ok(Bounds { lower, upper })
}

/// Where a line begins and ends. Codes 0 to 2 have the whole recording; a line
/// on others has what these have in common, and is its upper bound of time
/// shorter: "until, eventually and always still end their upper bound sooner",
/// since, once and historically begin "the upper bound more".
fn extent(operator: &Operator, head: &Head, earlier: &[Line]) -> Extent {
    let operands = operator.operands().into_iter().flatten();
    let common = operands.fold(Extent::whole(head.samples), |extent, operand| {
        extent.common(earlier[operand].extent)
    });
    match operator.reach() {
        Reach::Here => common,
        Reach::Ahead(upper) => common.ends_sooner(upper),
        Reach::Back(upper) => common.begins_later(upper),
    }
}
