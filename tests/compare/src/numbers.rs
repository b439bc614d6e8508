//! The plain program's answers in the form of the proved calls'.

use plain::best::Best;
use plain::{Done, Refusal};

/// Refusal, place and what was answered, zeros where there is none.
pub fn numbers(answer: Result<u64, Refusal>) -> [u64; 3] {
    match answer {
        Ok(number) => [0, 0, number],
        Err(Refusal { number, place }) => [u64::from(number), place as u64, 0],
    }
}

/// Refusal, place, least weight and how many sequences reach it.
pub fn four_numbers(answer: Result<Best, Refusal>) -> [u64; 4] {
    let reached = answer.as_ref().map_or(0, |found| found.reached as u64);
    let [number, place, least] = numbers(answer.map(|found| found.least));
    [number, place, least, reached]
}

/// Refusal, place, weight, trials, kept and new bytes.
pub fn six_numbers(answer: Result<Done, Refusal>) -> [u64; 6] {
    let [number, place, weight] = numbers(answer.map(|done| done.weight));
    let others = answer.map(|done| [done.trials, done.kept as u64, done.new as u64]);
    let [trials, kept, new] = others.unwrap_or_default();
    [number, place, weight, trials, kept, new]
}
