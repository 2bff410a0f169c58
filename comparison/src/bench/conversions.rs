//! The sheets that converters are timed on.

use super::sheets;
use super::tool_timing::{self, Times};
use crate::tools::{Tool, Tools};
use reference::convert::laid_out;
use reference::layout::Layout;
use reference::words;

/// The sheets that are timed, each with a name and the layout that it is taken to:
/// both ways, and unaltered.
pub fn timed_sheets() -> [(&'static str, Vec<u32>, Layout); 3] {
    let [narrow, wide] = Layout::BOTH.map(sheets::million);
    [
        ("narrow to wide", narrow, Layout::Wide),
        ("wide to narrow", wide.clone(), Layout::Narrow),
        ("wide, unaltered", wide, Layout::Wide),
    ]
}

/// Times both converters and a copy on a sheet.
///
/// # Panics
///
/// If the sheet cannot be taken to the layout, or if the converters do not agree.
pub fn timed(tools: &dyn Tools, words: &[u32], to: Layout) -> Times {
    let expected = words::to_bytes(&laid_out(words, to).expect("a valid sheet"));
    tool_timing::timed(tools, Tool::Convert(to), &[&words::to_bytes(words)], &expected)
}
