//! Benchmarks: an engine and the implementation's fast path on the same sheets,
//! in the same buffers, in one run.

pub mod cities;
pub mod conversions;
pub mod corrections;
pub mod report;
pub mod sheets;
mod timing;
mod tool_timing;

#[cfg(test)]
mod tests;

pub use timing::{timed, Times};
