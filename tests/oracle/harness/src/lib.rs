//! The oracle: ferrmion's own HATT and TOPP-HATT behind two plain calls that speak the numbers of document 01.

#[allow(dead_code)]
mod encode;
#[allow(dead_code)]
mod operators;
mod optimise;

use encode::ternarytree::TernaryTree;
use operators::MajoranaSparse;
use optimise::ternarytree::hatt::MAX_MAJORANAS;
use optimise::ternarytree::topphatt::NodeOrderHeuristic;
use tinyvec::ArrayVec;

// TOPP-HATT marks a slot Empty when its chosen child is node 0; a debug build stops there, a release build leaves the tree unharmed.
const _: () = assert!(
    !cfg!(debug_assertions),
    "the oracle is built with --release, without debug assertions"
);

/// The code of the one absent child.
pub const ABSENT: u16 = 65535;

/// HATT's rows (label, X, Y, Z), breadth first from the root, and its greedy weight.
pub fn hatt(modes: usize, terms: &[Vec<u16>]) -> (Vec<[u16; 4]>, usize) {
    let (flatpack, weight) = optimise::ternarytree::hatt::hatt(array_vecs(terms), modes)
        .expect("HATT answers every input of the domain");
    let code = |child: Option<usize>| child.map_or(ABSENT, |number| number as u16);
    let rows = flatpack
        .into_iter()
        .map(|(label, (x, y, z))| [label as u16, code(x), code(y), code(z)])
        .collect();
    (rows, weight)
}

/// TOPP-HATT's table of child codes, X, Y and Z of node 0 to n-1, and the sum of the weights it chose.
/// The heuristic is 0 for `min_weight`, 1 for `x_first`, 2 for `z_first`.
pub fn assign(
    modes: usize,
    tree: &[u16],
    heuristic: usize,
    terms: &[Vec<u16>],
) -> (Vec<u16>, usize) {
    let heuristic = match heuristic {
        0 => NodeOrderHeuristic::MinWeight,
        1 => NodeOrderHeuristic::XFirst,
        2 => NodeOrderHeuristic::ZFirst,
        other => panic!("no heuristic has the number {other}"),
    };
    let backend = MajoranaSparse {
        indices: array_vecs(terms),
    };
    let tree = TernaryTree::from_codes(modes, tree);
    let (tree, weight) = optimise::ternarytree::topphatt::topphatt(backend, tree, false, heuristic)
        .expect("TOPP-HATT answers every input of the domain");
    (tree.to_codes(), weight)
}

/// The terms in the form that the algorithms take.
fn array_vecs(terms: &[Vec<u16>]) -> Vec<ArrayVec<[u16; MAX_MAJORANAS]>> {
    terms
        .iter()
        .map(|term| term.iter().copied().collect())
        .collect()
}
