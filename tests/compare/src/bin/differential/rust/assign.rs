//! Assignment: table and weight, under each heuristic.

use super::{size_of, smallest, Terms, COUNTS};
use crate::calls;
use crate::finished::is_accepted;
use crate::tally::{equal, Tally};
use compare::cases::{any_tree, flat, terms, tree, Random, Shape, GROWTHS, SHAPES};

/// Every number of modes from 1 to 12, every growth and shape, under each heuristic.
pub fn on_small(random: &mut Random, tally: &mut Tally) {
    for modes in 1..=12 {
        for growth in GROWTHS {
            for shape in SHAPES {
                for _ in 0..16 {
                    let tree = tree(random, modes, growth);
                    let count = random.one_of(&COUNTS);
                    let terms = terms(random, modes, count, shape);
                    compare_assign(tally, "on 1 to 12 modes", modes, &tree, &terms);
                }
            }
        }
    }
}

pub fn on_large(random: &mut Random, tally: &mut Tally) {
    for modes in [13, 16, 21, 32] {
        for growth in GROWTHS {
            for shape in SHAPES {
                let tree = tree(random, modes, growth);
                let terms = terms(random, modes, 2 * modes, shape);
                compare_assign(tally, "on 13 modes and more", modes, &tree, &terms);
            }
        }
    }
    for (modes, count) in [(3, 2048), (9, 2048), (64, 40), (256, 2)] {
        for growth in GROWTHS {
            let tree = tree(random, modes, growth);
            let terms = terms(random, modes, count, Shape::Mixed);
            compare_assign(tally, "on 13 modes and more", modes, &tree, &terms);
        }
    }
}

/// Every number of modes once, on a tree of any growth, under each heuristic.
pub fn on_every(random: &mut Random, tally: &mut Tally) {
    for modes in 1..=256 {
        let tree = any_tree(random, modes);
        let terms = terms(random, modes, 1 + modes % 2, Shape::Mixed);
        compare_assign(
            tally,
            "on every number of modes, 1 to 256",
            modes,
            &tree,
            &terms,
        );
    }
}

/// All three heuristics, each a comparison of its own.
fn compare_assign(tally: &mut Tally, kind: &str, modes: usize, tree: &[u16], terms: &Terms) {
    for (heuristic, name) in ["min_weight", "x_first", "z_first"].iter().enumerate() {
        let input = || {
            let agrees = |fewer: &Terms| assign_agrees(modes, tree, heuristic, fewer);
            let least = smallest(terms, agrees);
            format!("modes {modes}, tree {tree:?}, {name}, terms {least:?}")
        };
        let kind = format!("assign {kind}, {name}");
        let comparison = || assign_agrees(modes, tree, heuristic, terms);
        tally.compare(&kind, size_of(modes, terms), input, comparison);
    }
}

fn assign_agrees(
    modes: usize,
    tree: &[u16],
    heuristic: usize,
    terms: &Terms,
) -> Result<(), String> {
    let (table, weight) = calls::assign(modes, tree, heuristic, &flat(terms))?;
    let (expected, expected_weight) = oracle::assign(modes, tree, heuristic, terms);
    equal("table", &table, &expected)?;
    equal("weight", weight, expected_weight as u64)?;
    is_accepted(modes, &table)
}
