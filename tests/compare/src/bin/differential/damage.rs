//! Damaged journals: a call must end, and refuse without altering anything or accept with every invariant holding.

use crate::calls::{accepted, resume};
use crate::cuts::{describe, wandering};
use crate::invariants::{hold, is_first_bad_line};
use crate::tally::Tally;
use compare::cases::{any_terms, flat, Random};

/// What a byte is changed to: tab, line feed, digits, letters of the header, and others.
const BYTES: &[u8] = b"\t\n0123456789hatx -\r\0\xff";

/// How often damaged journals were refused by each number; place 0 counts the accepted ones.
type Outcomes = [u64; 19];

/// Whole journals of 1 to 6 modes, greedy and wandering ones, each damaged in every way.
pub fn damage_everywhere(random: &mut Random, tally: &mut Tally) {
    let mut outcomes = [0; 19];
    for modes in 1..=6 {
        for round in 0..6 {
            let terms = flat(&any_terms(random, modes, 12));
            let unbroken = accepted(modes, &terms, &[]).expect("good terms are accepted");
            let journal = match round % 2 {
                0 => unbroken.new,
                _ => wandering(random, modes, &terms),
            };
            damage(tally, &mut outcomes, modes, &terms, &journal);
        }
    }
    print!("damaged journals: {} accepted", outcomes[0]);
    for (number, times) in outcomes.iter().enumerate().skip(1) {
        if *times > 0 {
            print!(", {times} refused by {number}");
        }
    }
    println!();
}

fn damage(tally: &mut Tally, outcomes: &mut Outcomes, modes: usize, terms: &[u16], journal: &[u8]) {
    let kinds = [bytes_damaged(journal), lines_damaged(journal)].concat();
    for (kind, damaged) in kinds {
        let input = || describe(modes, terms, &damaged);
        let size = 1000 * modes + damaged.len();
        tally.compare(kind, size, input, || {
            match resume(modes, terms, &damaged)? {
                Ok(finished) => {
                    outcomes[0] += 1;
                    hold(modes, terms, &damaged, &finished)
                }
                Err(refusal) => {
                    outcomes[usize::from(refusal.number)] += 1;
                    is_first_bad_line(modes, terms, &damaged, refusal)
                }
            }
        });
    }
}

/// The journal with each byte changed, dropped and doubled.
fn bytes_damaged(journal: &[u8]) -> Vec<(&'static str, Vec<u8>)> {
    let mut damaged = Vec::new();
    for place in 0..journal.len() {
        let (before, after) = (&journal[..place], &journal[place + 1..]);
        let byte = journal[place];
        for &other in BYTES.iter().filter(|&&other| other != byte) {
            damaged.push((
                "journals with a byte changed",
                [before, &[other], after].concat(),
            ));
        }
        damaged.push(("journals with a byte dropped", [before, after].concat()));
        let doubled = [before, &[byte, byte], after].concat();
        damaged.push(("journals with a byte doubled", doubled));
    }
    damaged
}

/// The journal with each line dropped and doubled, and each two lines exchanged.
fn lines_damaged(journal: &[u8]) -> Vec<(&'static str, Vec<u8>)> {
    let lines: Vec<&[u8]> = journal.split_inclusive(|&byte| byte == b'\n').collect();
    let mut damaged = Vec::new();
    for place in 0..lines.len() {
        let mut dropped = lines.clone();
        let line = dropped.remove(place);
        damaged.push(("journals with a line dropped", dropped.concat()));
        let mut doubled = lines.clone();
        doubled.insert(place, line);
        damaged.push(("journals with a line doubled", doubled.concat()));
        for other in place + 1..lines.len() {
            let mut exchanged = lines.clone();
            exchanged.swap(place, other);
            damaged.push(("journals with lines exchanged", exchanged.concat()));
        }
    }
    damaged
}
