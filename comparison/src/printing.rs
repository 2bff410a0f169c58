//! The printing program against the implementation's text, every character.

use crate::difference::{demand, Checked, Difference};
use crate::reached::Reached;
use reference::fast::Fast;
use reference::generate::limits;
use reference::generate::random::Random;
use reference::layout::Front;
use reference::print::{print, ANSWER_WORDS, MOST_BYTES};
use reference::words::{self, BYTES_PER_WORD};
use std::io::Write;
use std::path::PathBuf;
use std::process::{Child, Command, Stdio};

/// The words of the longest input that the program takes.
const MOST_WORDS: usize = MOST_BYTES / BYTES_PER_WORD;

/// What a run must have reached at the limits of the program.
const LIMITS: [&str; 4] = [
    "printed: input of 32,768 bytes",
    "printed: input above 32,768 bytes",
    "printed: answer of 16,384 words",
    "printed: answer above 16,384 words",
];

/// What a run must have reached in print: acceptance, also of a line that begins
/// late and of a wide sheet, every refusal, that of too few distances where there
/// are more than 64 places, and its limits.
pub fn labels() -> Vec<String> {
    let refusals = (1..=17).map(|number| format!("printed: refused {number}"));
    let accepted = [ACCEPTED, LATE, WIDE].map(String::from);
    accepted.into_iter().chain(refusals).chain(LIMITS.map(String::from)).collect()
}

const ACCEPTED: &str = "printed: accepted";

/// Rows of a wide sheet, which are as those of a narrow one.
const WIDE: &str = "printed: accepted, a wide sheet";

/// A row that follows one of another line and has a sample above 0.
const LATE: &str = "printed: a line that begins late";

fn begins_late(text: &str) -> bool {
    let rows = text.lines().map(|row| row.split(' ').take(2).collect::<Vec<_>>());
    let rows: Vec<Vec<&str>> = rows.collect();
    rows.windows(2).any(|pair| {
        let [before, row] = pair else { return false };
        row[0] != "end" && row[0] != before[0] && row[1] != "0"
    })
}

/// The label of a printed text: its first word and, of a refusal, the number.
fn label(text: &str) -> String {
    let mut parts = text.split_ascii_whitespace();
    match (parts.next(), parts.next()) {
        (Some("refused"), Some(number)) => format!("printed: refused {number}"),
        _ => ACCEPTED.into(),
    }
}

/// Anything that prints what a sheet's bytes say.
pub trait Printer {
    /// What is printed for an input, errors included.
    fn print(&self, input: &[u8]) -> std::io::Result<String>;
}

/// Gives the input to a printer, which must print what the implementation prints,
/// nothing on standard error, and end well.
pub fn compare(printer: &dyn Printer, input: &[u8], reached: &mut Reached) -> Checked {
    let printed = printer
        .print(input)
        .map_err(|error| Difference::new(format!("the printing program cannot be run: {error}")))?;
    let expected = print::<Fast>(input);
    demand(printed == expected, || told(&printed, &expected))
        .map_err(|difference| difference.on("input", input))?;
    let label = label(&expected);
    reached.count(&label);
    if begins_late(&expected) {
        reached.count(LATE);
    }
    if label == ACCEPTED && Front::told_by_bytes(input).layout.is_wide() {
        reached.count(WIDE);
    }
    Ok(())
}

/// Gives a sheet just at or just beyond a limit to a printer.
pub fn compare_limit(printer: &dyn Printer, random: &mut Random, reached: &mut Reached) -> Checked {
    let (words, label) = match random.below(4) {
        0 => (limits::sheet_of_words(random, MOST_WORDS), LIMITS[0]),
        1 => (limits::sheet_of_words(random, MOST_WORDS + 1), LIMITS[1]),
        2 => (limits::sheet_of_answer(random, ANSWER_WORDS), LIMITS[2]),
        _ => (limits::sheet_of_answer(random, ANSWER_WORDS + 1), LIMITS[3]),
    };
    let mut input = words::to_bytes(&words);
    // Beyond the limit of the input some bytes more or less change nothing.
    if label == LIMITS[1] {
        let more = random.pick(&[0, 0, 1, 3, 8_000, 60_000, 300_000]);
        input.truncate(input.len() - random.below(4));
        input.resize(input.len() + more, 0);
    }
    compare(printer, &input, reached)?;
    reached.count(label);
    Ok(())
}

/// The printing program, by its path.
pub struct Program(pub PathBuf);

impl Printer for Program {
    fn print(&self, input: &[u8]) -> std::io::Result<String> {
        let mut child = Command::new(&self.0)
            .stdin(Stdio::piped())
            .stdout(Stdio::piped())
            .stderr(Stdio::piped())
            .spawn()?;
        feed(&mut child, input)?;
        let output = child.wait_with_output()?;
        let mut text = String::from_utf8_lossy(&output.stdout).into_owned();
        text.push_str(&String::from_utf8_lossy(&output.stderr));
        if !output.status.success() {
            text.push_str(&format!("({})", output.status));
        }
        Ok(text)
    }
}

/// Writes the input. A program that has seen that it is too long need not read
/// on, so a broken pipe is no fault.
fn feed(child: &mut Child, input: &[u8]) -> std::io::Result<()> {
    let Some(mut stdin) = child.stdin.take() else {
        return Ok(());
    };
    match stdin.write_all(input) {
        Err(error) if error.kind() != std::io::ErrorKind::BrokenPipe => Err(error),
        _ => Ok(()),
    }
}

/// The first row that differs.
fn told(printed: &str, expected: &str) -> String {
    let rows = printed.lines().count().max(expected.lines().count());
    let row = |text: &str, at: usize| text.lines().nth(at).map(str::to_string);
    let at = (0..rows).find(|&at| row(printed, at) != row(expected, at));
    match at {
        Some(at) => {
            let (program, implementation) = (row(printed, at), row(expected, at));
            format!("printed row {at}: program {program:?}, implementation {implementation:?}")
        }
        None => "the printed texts differ in their newlines".into(),
    }
}
