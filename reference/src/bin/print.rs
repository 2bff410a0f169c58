//! The printing program: a sheet's bytes on standard input, rows on standard
//! output.

use reference::fast::Fast;
use reference::print::{print, MOST_BYTES};
use std::io::{self, Read, Write};

fn main() -> io::Result<()> {
    // One byte past the limit is enough to see that the input is above it.
    let mut input = Vec::new();
    let limit = MOST_BYTES as u64 + 1;
    io::stdin().lock().take(limit).read_to_end(&mut input)?;
    io::stdout().write_all(print::<Fast>(&input).as_bytes())
}
