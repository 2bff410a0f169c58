//! What a run of the comparison reaches, with no library at hand: the
//! implementation stands for the engine, and the definitions are asked wherever
//! there are few places.
//!
//! `reach FIRST_SEED COUNT`
//!
//! An example and not a program, since the programs are linked with the library.

use comparison::compare::Comparison;
use comparison::Implementation;
use std::process::ExitCode;

fn main() -> ExitCode {
    let mut arguments = std::env::args().skip(1).map(|text| text.parse::<u64>());
    let (Some(Ok(first)), Some(Ok(count))) = (arguments.next(), arguments.next()) else {
        eprintln!("usage: reach FIRST_SEED COUNT");
        return ExitCode::from(2);
    };
    let mut comparison = Comparison::new(&Implementation, &Implementation, None);
    for seed in first..first + count {
        if let Err(difference) = comparison.seed(seed) {
            println!("seed {seed}: {}", difference.what);
            return ExitCode::FAILURE;
        }
    }
    print!("{}", comparison.reached.rows());
    let missed = comparison.reached.missed();
    println!("{count} seeds, never reached: {}", missed.len());
    missed.iter().for_each(|label| println!("  {label}"));
    ExitCode::SUCCESS
}
