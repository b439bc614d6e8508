//! The assign inputs that are recorded, each under all three heuristics.

use compare::cases::{any_terms, permute_labels, tree, tree_of_rows, Growth, Random, ABSENT};

pub struct AssignCase {
    pub kind: &'static str,
    pub modes: usize,
    pub tree: Vec<u16>,
    pub heuristic: usize,
    pub terms: Vec<Vec<u16>>,
}

const SEED: u64 = 2;
const MOST_TERMS: usize = 24;

/// Every assign case, in the order of the file.
pub fn all() -> Vec<AssignCase> {
    let random = &mut Random::new(SEED);
    let mut cases = examples();
    for modes in 1..=24 {
        cases.extend(hatt_trees(random, "HATT's trees, 1 to 24 modes", modes));
        cases.extend(made_trees(random, "other trees, 1 to 24 modes", modes));
    }
    for modes in [32, 64] {
        cases.extend(hatt_trees(random, "HATT's trees, 32 and 64 modes", modes));
        cases.extend(made_trees(random, "other trees, 32 and 64 modes", modes));
    }
    cases
}

/// Document 01's examples P8 and P9, and the smallest input where a chosen child is node 0, whose number the Rust takes for the empty slot's.
fn examples() -> Vec<AssignCase> {
    let p3_tree = [2, 3, 4, 0, 5, ABSENT];
    let p3_terms = vec![vec![0, 1], vec![2, 3], vec![0, 1, 2, 3]];
    let node_0_chosen = [4, 5, ABSENT, 2, 3, 0];
    let mut cases = under_each_heuristic("examples of document 01", &p3_tree, &[vec![1]]);
    cases.extend(under_each_heuristic(
        "examples of document 01",
        &p3_tree,
        &p3_terms,
    ));
    cases.extend(under_each_heuristic(
        "node 0 as a chosen child",
        &node_0_chosen,
        &[],
    ));
    cases
}

/// HATT's own tree, its labels permuted, with the terms it was made for and with others.
fn hatt_trees(random: &mut Random, kind: &'static str, modes: usize) -> Vec<AssignCase> {
    let own_terms = any_terms(random, modes, MOST_TERMS);
    let other_terms = any_terms(random, modes, MOST_TERMS);
    let (rows, _) = oracle::hatt(modes, &own_terms);
    let tree = permute_labels(&tree_of_rows(&rows), &random.permutation(modes));
    let mut cases = under_each_heuristic(kind, &tree, &own_terms);
    cases.extend(under_each_heuristic(kind, &tree, &other_terms));
    cases
}

/// Accepted trees of three growths: free, level by level, and the others in turn.
fn made_trees(random: &mut Random, kind: &'static str, modes: usize) -> Vec<AssignCase> {
    let narrow = [Growth::Deep, Growth::ChainX, Growth::ChainY, Growth::ChainZ];
    let growths = [Growth::Any, Growth::Level, narrow[modes % narrow.len()]];
    let case = |growth| {
        let tree = tree(random, modes, growth);
        let terms = any_terms(random, modes, MOST_TERMS);
        under_each_heuristic(kind, &tree, &terms)
    };
    growths.into_iter().flat_map(case).collect()
}

/// One input under each of the three heuristics.
fn under_each_heuristic(kind: &'static str, tree: &[u16], terms: &[Vec<u16>]) -> Vec<AssignCase> {
    let case = |heuristic| AssignCase {
        kind,
        modes: tree.len() / 3,
        tree: tree.to_vec(),
        heuristic,
        terms: terms.to_vec(),
    };
    (0..3).map(case).collect()
}
