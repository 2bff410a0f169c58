//! A reference implementation of the station-network verdict engine.
//!
//! The engine reads a sheet of 32-bit words (a network of places, the samples
//! recorded there and a table of formulas), checks it, and writes an answer
//! of 32-bit words: for every formula, sample and place a verdict and a
//! margin. Comments call what lays the engine out *the scope*, its base and the
//! requests that follow it, and quote it; *the paper* is its source on the
//! logic SSTL, from which the numbered definitions are taken.
//!
//! Two evaluators stand side by side and share nothing but the sheet and the
//! distances:
//!
//! * [`meaning::Meaning`] follows the definitions to the letter and
//!   enumerates every region of a surround: slow, made to be trusted;
//! * [`fast::Fast`] iterates Definition 4.4 to its fixed point, as Algorithm 2
//!   of the paper does: made for networks of any size.
//!
//! [`judge()`], [`lookup()`] and [`print()`] are what a host and the printing
//! program see. Beside them a host has tools, which write words without judging:
//! [`sheet_to_wide()`] and [`sheet_to_narrow()`], and [`correct_sheet()`].

#![forbid(unsafe_code)]
#![warn(missing_docs)]

pub mod answer;
pub mod builder;
pub mod convert;
pub mod correct;
pub mod distance;
pub mod evaluation;
pub mod fast;
pub mod generate;
pub mod judge;
pub mod layout;
pub mod left;
pub mod lookup;
pub mod margin;
pub mod meaning;
pub mod numbers;
pub mod page;
pub mod print;
pub mod refusal;
pub mod road;
pub mod sheet;
pub mod tool;
pub mod words;
pub mod worked;

pub use convert::{sheet_to_narrow, sheet_to_wide};
pub use correct::correct_sheet;
pub use judge::judge;
pub use lookup::lookup;
pub use print::print;
