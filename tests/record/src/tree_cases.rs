//! The tree tables that are recorded, good and damaged, each with good terms.

use compare::cases::{
    any_terms, any_tree, change_length, exchange_codes, replace_code, Random, ABSENT,
};

pub struct TreeCase {
    pub kind: &'static str,
    pub modes: usize,
    pub tree: Vec<u16>,
    pub terms: Vec<Vec<u16>>,
}

const SEED: u64 = 4;
const MOST_TERMS: usize = 12;

/// Every tree case, in the order of the file.
pub fn all() -> Vec<TreeCase> {
    let random = &mut Random::new(SEED);
    let mut cases = examples();
    for modes in 1..=12 {
        for _ in 0..4 {
            let good = any_tree(random, modes);
            let replaced = replace_code(random, good.clone());
            let exchanged = exchange_codes(random, good.clone());
            let lengthened = change_length(random, good.clone());
            cases.push(made(random, "good trees", modes, good));
            cases.push(made(random, "a code replaced", modes, replaced));
            cases.push(made(random, "codes exchanged", modes, exchanged));
            cases.push(made(random, "a code more or less", modes, lengthened));
        }
    }
    cases
}

/// The trees of document 01's examples P3 and P4 with their terms.
fn examples() -> Vec<TreeCase> {
    let p3_terms = vec![vec![0, 1], vec![2, 3], vec![0, 1, 2, 3]];
    let p4_terms = vec![vec![2], vec![2]];
    let p3 = ([2, 3, 4, 0, 5, ABSENT], p3_terms);
    let p4 = ([2, 3, 5, 4, 0, ABSENT], p4_terms);
    [p3, p4]
        .map(|(tree, terms)| TreeCase {
            kind: "examples of document 01",
            modes: 2,
            tree: tree.to_vec(),
            terms,
        })
        .into()
}

fn made(random: &mut Random, kind: &'static str, modes: usize, tree: Vec<u16>) -> TreeCase {
    let terms = any_terms(random, modes, MOST_TERMS);
    TreeCase {
        kind,
        modes,
        tree,
        terms,
    }
}
