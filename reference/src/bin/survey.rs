//! A survey of generated cases: how often each number is reached, and how many
//! sheets a second each evaluator judges.
//!
//! `survey [FIRST SEED] [COUNT] [MOST PLACES]`

use reference::evaluation::Evaluation;
use reference::fast::Fast;
use reference::generate::{case, Case};
use reference::judge;
use reference::meaning::Meaning;
use std::time::Instant;

/// Beyond this many places enumerating all regions takes too long.
const MOST_FOR_MEANING: usize = 12;

fn main() {
    let mut arguments = std::env::args().skip(1).map(|text| text.parse());
    let mut next = |otherwise: u64| match arguments.next() {
        Some(Ok(number)) => number,
        _ => otherwise,
    };
    let first = next(0);
    let count = next(10_000);
    let most_places = next(6).clamp(1, 1024) as usize;
    let cases: Vec<Case> = (first..first + count).map(|seed| case(seed, most_places)).collect();
    let numbers = report::<Fast>("fast", &cases);
    if most_places <= MOST_FOR_MEANING {
        report::<Meaning>("meaning", &cases);
    }
    for (number, reached) in numbers.iter().enumerate() {
        println!("number {number}: {reached}");
    }
}

/// Judges all cases, prints the rate, and counts the numbers.
fn report<E: Evaluation>(name: &str, cases: &[Case]) -> [u64; 18] {
    let mut numbers = [0; 18];
    let start = Instant::now();
    for case in cases {
        let mut distances = vec![0; case.distances];
        let mut answer = vec![0; case.answer];
        let mut result = vec![0; case.result];
        let number = judge::<E>(&case.sheet, &mut distances, &mut answer, &mut result);
        numbers[number as usize] += 1;
    }
    let rate = cases.len() as f64 / start.elapsed().as_secs_f64();
    println!("{name}: {rate:.0} sheets a second");
    numbers
}
