//! HATT: rows, weight, trials and what the program prints.

use super::{size_of, smallest, Terms, COUNTS};
use crate::calls;
use crate::finished::{is_accepted, not_below_best};
use crate::invariants::total_trials;
use crate::tally::{equal, Tally};
use compare::cases::{flat, terms, tree_of_rows, Random, Shape, ABSENT, SHAPES};

/// Every number of modes from 1 to 12, every shape, every count.
pub fn on_small(random: &mut Random, tally: &mut Tally) {
    for modes in 1..=12 {
        for shape in SHAPES {
            for count in COUNTS {
                for _ in 0..20 {
                    let terms = terms(random, modes, count, shape);
                    compare_hatt(tally, "HATT on 1 to 12 modes", modes, &terms);
                }
            }
        }
    }
}

pub fn on_large(random: &mut Random, tally: &mut Tally) {
    for modes in [13, 16, 21, 32, 48] {
        for shape in SHAPES {
            let terms = terms(random, modes, 4 * modes, shape);
            compare_hatt(tally, "HATT on 13 modes and more", modes, &terms);
        }
    }
    for (modes, count) in [(3, 2048), (12, 2048), (64, 300), (256, 1), (256, 12)] {
        let terms = terms(random, modes, count, Shape::Mixed);
        compare_hatt(tally, "HATT on 13 modes and more", modes, &terms);
    }
}

/// Every number of modes once, with one or two terms: the most modes take seconds with more.
pub fn on_every(random: &mut Random, tally: &mut Tally) {
    for modes in 1..=256 {
        let terms = terms(random, modes, 1 + modes % 2, Shape::Mixed);
        compare_hatt(
            tally,
            "HATT on every number of modes, 1 to 256",
            modes,
            &terms,
        );
    }
}

/// Every number of terms from 0 to 64, for 1 to 8 modes; and the most terms for the most modes that they are meant for.
pub fn on_counts(random: &mut Random, tally: &mut Tally) {
    for count in 0..=64 {
        for modes in 1..=8 {
            let terms = terms(random, modes, count, Shape::Mixed);
            compare_hatt(tally, "HATT on 0 to 64 terms", modes, &terms);
        }
    }
    let terms = terms(random, 64, 2048, Shape::Chemistry);
    compare_hatt(tally, "HATT on 64 modes and 2048 terms", 64, &terms);
}

pub fn compare_hatt(tally: &mut Tally, kind: &str, modes: usize, terms: &Terms) {
    let input = || {
        let least = smallest(terms, |fewer| hatt_agrees(modes, fewer));
        format!("modes {modes}, terms {least:?}")
    };
    let size = size_of(modes, terms);
    tally.compare(kind, size, input, || hatt_agrees(modes, terms));
}

/// Rows, weight and what the program prints.
fn hatt_agrees(modes: usize, terms: &Terms) -> Result<(), String> {
    let finished = calls::accepted(modes, &flat(terms), &[])?;
    let (rows, weight) = oracle::hatt(modes, terms);
    equal("rows", &finished.rows, &rows)?;
    equal("weight", finished.done.weight, weight as u64)?;
    equal("trials", finished.done.trials, total_trials(modes))?;
    let tree = tree_of_rows(&rows);
    is_accepted(modes, &tree)?;
    not_below_best(modes, &tree, &flat(terms))?;
    let printed = plain::program(program_input(modes, terms).as_bytes());
    let expected = program_output(&rows, weight, total_trials(modes));
    equal(
        "printed",
        String::from_utf8_lossy(&printed).as_ref(),
        &expected,
    )
}

fn program_input(modes: usize, terms: &Terms) -> String {
    let mut input = format!("modes\t{modes}\n");
    for term in terms {
        let indices: Vec<String> = term.iter().map(u16::to_string).collect();
        input += &format!("term\t{}\n", indices.join("\t"));
    }
    input
}

fn program_output(rows: &[[u16; 4]], weight: usize, trials: u64) -> String {
    let mut output = format!("weight\t{weight}\ntrials\t{trials}\n");
    for [label, children @ ..] in rows {
        let codes = children.map(|code| match code {
            ABSENT => "-".to_string(),
            _ => code.to_string(),
        });
        output += &format!("node\t{label}\t{}\n", codes.join("\t"));
    }
    output
}
