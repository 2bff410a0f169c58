//! What is timed, and the rows that tell it.

use super::sheets::{self, BothWays, Readings};
use super::{cities, conversions, corrections, timed, tool_timing, Times};
use crate::tools::Tools;
use crate::Engine;
use reference::layout::Layout;
use std::time::Duration;

/// Times the three sheets of the benchmark, then how time grows with samples,
/// places, lines, windows of time and ranges; prints a row for each. Then come
/// windows ahead beside the same windows back, and surrounds with islands beside
/// the same without. Last come the smallest sheet, cities, and the tools: converters,
/// and what corrects sheets.
pub fn print(engine: &dyn Engine, tools: &dyn Tools) {
    section("The three sheets, 64 places and 1,024 samples, surrounds with islands (code 15)");
    row(engine, "8×8 grid, twelve codes", &sheets::full_grid());
    row(engine, "path", &sheets::path());
    row(engine, "full graph of 2,016 roads", &sheets::full_graph());
    by_samples(engine);
    by_places(engine);
    by_lines(engine);
    by_windows(engine);
    by_ranges(engine);
    both_ways(engine);
    both_readings(engine);
    smallest(engine);
    by_cities(engine);
    print_converters(tools);
    print_corrections(tools);
}

fn by_samples(engine: &dyn Engine) {
    section("By samples: 8×8 grid, codes 0 to 6, 8 to 11 and 15");
    for samples in [1, 8, 16, 64, 256, 1024] {
        row(engine, &format!("samples: {samples}"), &sheets::grid(8, samples));
    }
}

fn by_places(engine: &dyn Engine) {
    section("By places: square grids, codes 0 to 6, 8 to 11 and 15, 256 samples");
    for side in [2, 3, 4, 5, 6, 7, 8] {
        row(engine, &format!("places: {}", side * side), &sheets::grid(side, 256));
    }
}

fn by_lines(engine: &dyn Engine) {
    section("By lines: 6×6 grid, 256 samples");
    for lines in [8, 16, 32, 64] {
        row(engine, &format!("lines: {lines}"), &sheets::grid_of_lines(lines));
    }
}

fn by_windows(engine: &dyn Engine) {
    section("By windows: 8×8 grid, until, eventually and always, 1,024 samples");
    for ahead in [4, 16, 64, 256, 512] {
        row(engine, &format!("0..{ahead}"), &sheets::grid_of_windows(ahead));
    }
}

fn by_ranges(engine: &dyn Engine) {
    section("By ranges: 8×8 grid, somewhere and everywhere, 1,024 samples");
    for upper in [2, 5, 10, 100] {
        row(engine, &format!("0..{upper}"), &sheets::grid_of_ranges(upper));
    }
}

/// Bounds of the windows that are timed both ways.
const BOTH_WAYS: [(u32, u32); 7] =
    [(0, 4), (0, 16), (0, 64), (0, 256), (0, 512), (16, 16), (256, 512)];

fn both_ways(engine: &dyn Engine) {
    println!("\nAhead and back: 8×8 grid, 1,024 samples, the same windows both ways");
    heading(["ahead", "back", "back/ahead"]);
    println!();
    for (lower, upper) in BOTH_WAYS {
        let sheets = sheets::until_and_since((lower, upper));
        pair(engine, &format!("until, since {lower}..{upper}"), &sheets);
    }
    pair(engine, "60 lines, 0..1 to 0..4", &sheets::short_windows());
    println!("Eventually and always; once and historically");
    for (lower, upper) in BOTH_WAYS {
        let sheets = sheets::windows_both_ways((lower, upper));
        pair(engine, &format!("{lower}..{upper}"), &sheets);
    }
}

fn smallest(engine: &dyn Engine) {
    section("The smallest: 2×2 grid, one sample, one line, an atom");
    row(engine, "a call", &cities::tiny());
}

/// Bounds of the surrounds that are timed on a city.
const OF_CITY: [(u32, u32); 3] = [(0, 3), (1, 5), (2, 12)];

fn by_cities(engine: &dyn Engine) {
    for samples in [1, 100] {
        section(&format!("Wide: 32×32 grid, one surround with islands (15), samples: {samples}"));
        for (lower, upper) in OF_CITY {
            let sheet = cities::surround(samples, (lower, upper));
            row(engine, &format!("surround {lower}..{upper}"), &sheet);
        }
    }
    section("Wide: 1,024 places in full, 523,776 roads, one sample, true");
    row(engine, "distances alone", &cities::full_graph());
    section("Wide: 32×32 grid of one-way streets, one surround with islands (15), samples: 100");
    for (lower, upper) in OF_CITY {
        let sheet = cities::surround_on_streets(100, (lower, upper));
        row(engine, &format!("surround {lower}..{upper}"), &sheet);
    }
}

/// Times the converters; prints a row for each way.
pub fn print_converters(tools: &dyn Tools) {
    tool_section("Converters: a million words, 64 places, 2,016 roads, 16 signals, 1,024 samples");
    for (name, words, to) in conversions::timed_sheets() {
        tool_row(name, conversions::timed(tools, &words, to));
    }
}

/// Times what corrects sheets; prints a row for each list.
pub fn print_corrections(tools: &dyn Tools) {
    tool_section("Corrections of the same sheet, narrow, by lists of so many");
    let words = sheets::million(Layout::Narrow);
    for (name, list) in corrections::timed_lists(&words) {
        tool_row(name, corrections::timed(tools, &words, &list));
    }
}

fn tool_section(title: &str) {
    println!("\n{title}");
    let heading = ["engine", "implementation", "share", "plain copy", "engine/copy"];
    let [engine, implementation, share, copy, ratio] = heading;
    println!("{:28}{engine:>12}{implementation:>16}{share:>8}{copy:>12}{ratio:>13}", "");
}

fn tool_row(name: &str, times: tool_timing::Times) {
    let tool_timing::Times { engine, implementation, copy } = times;
    println!(
        "{name:28}{:>12}{:>16}{:>8.2}{:>12}{:>13.1}",
        milliseconds(engine),
        milliseconds(implementation),
        ratio_of(engine, implementation),
        milliseconds(copy),
        ratio_of(engine, copy)
    );
}

fn ratio_of(one: Duration, other: Duration) -> f64 {
    one.as_secs_f64() / other.as_secs_f64()
}

fn section(title: &str) {
    println!("\n{title}");
    println!("{:28}{:>8}{:>12}{:>16}{:>8}", "", "rounds", "engine", "implementation", "share");
}

fn row(engine: &dyn Engine, name: &str, words: &[u32]) {
    let times = timed(engine, words);
    let Times { engine, implementation, rounds } = times;
    println!(
        "{name:28}{rounds:>8}{:>12}{:>16}{:>8.2}",
        milliseconds(engine),
        milliseconds(implementation),
        times.share()
    );
}

/// Bounds of the surrounds that are timed with islands and without.
const BOTH_READINGS: [(u32, u32); 3] = [(0, 3), (0, 6), (2, 8)];

fn both_readings(engine: &dyn Engine) {
    println!("\nWith islands (15) and without (7): 8×8 grid, 64 samples");
    heading(["15", "7", "7/15"]);
    println!("{:>8}", "runs");
    for (lower, upper) in BOTH_READINGS {
        let sheets = sheets::surrounds((lower, upper));
        readings(engine, &format!("surround {lower}..{upper}"), &sheets);
    }
    readings(engine, "twelve codes, 3 surrounds", &sheets::grids_of_surrounds());
}

/// The columns of two sheets side by side, times, ratio and the engine's shares;
/// the row is not ended.
fn heading([one, other, ratio]: [&str; 3]) {
    println!("{:28}{:^36}{:^36}{:>20}", "", "engine", "implementation", "engine's share");
    let times = format!("{one:>12}{other:>12}");
    print!("{:28}{times}{ratio:>12}{times}{ratio:>12}{one:>10}{other:>10}", "");
}

fn pair(engine: &dyn Engine, name: &str, sheets: &BothWays) {
    let (ahead, back) = (timed(engine, &sheets.ahead), timed(engine, &sheets.back));
    println!("{name:28}{}", side_by_side(ahead, back));
}

/// Last stands how many runs a centre has in the sheet without islands.
fn readings(engine: &dyn Engine, name: &str, sheets: &Readings) {
    let with = timed(engine, &sheets.with_islands);
    let without = timed(engine, &sheets.without_islands);
    let runs = sheets::runs_of_centre(&sheets.without_islands);
    println!("{name:28}{}{runs:>8.1}", side_by_side(with, without));
}

/// The times of two sheets and their ratio, for both engines, and the engine's
/// shares.
fn side_by_side(one: Times, other: Times) -> String {
    let columns = |one: Duration, other: Duration| {
        let ratio = ratio_of(other, one);
        format!("{:>12}{:>12}{ratio:>12.2}", milliseconds(one), milliseconds(other))
    };
    let engine = columns(one.engine, other.engine);
    let implementation = columns(one.implementation, other.implementation);
    format!("{engine}{implementation}{:>10.2}{:>10.2}", one.share(), other.share())
}

/// With as many digits as a call on the smallest sheet needs.
fn milliseconds(time: Duration) -> String {
    let milliseconds = time.as_secs_f64() * 1e3;
    let digits = if milliseconds < 0.1 { 5 } else { 2 };
    format!("{milliseconds:.digits$} ms")
}
