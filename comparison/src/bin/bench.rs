//! The benchmarks: the engine's library against the reference implementation's
//! fast path. The last column is the engine's share, its time divided by the
//! implementation's: below 1 the engine is faster.
//!
//! `bench [converters|corrections]`
//!
//! All of them, or those of the converters or of corrections alone, which take a
//! moment.

#[path = "../library.rs"]
mod library;

use comparison::bench::report;
use library::Library;

fn main() {
    match std::env::args().nth(1).as_deref() {
        Some("converters") => report::print_converters(&Library),
        Some("corrections") => report::print_corrections(&Library),
        _ => report::print(&Library, &Library),
    }
}
