//! What a finished tree guarantees: the check accepts it, the run that ended in it weighs no more than it does, and it says where each term was dropped.

use crate::calls::PUBLISHED;
use crate::tally::equal;
use compare::cases::tree_of_rows;
use compare::proved;
use std::collections::BTreeSet;

/// Both checks accept the tree, the plain program's and the proved one.
pub fn is_accepted(modes: usize, tree: &[u16]) -> Result<(), String> {
    equal("tree check", plain::check_tree(modes, tree), Ok(()))?;
    equal("proved tree check", proved::check_tree(modes, tree), [0; 3])
}

/// Greedy weight is at most what the rows weigh one by one, and at most the tree weight where no two of them are the same operator.
pub fn weighs_at_least(
    modes: usize,
    tree: &[u16],
    terms: &[u16],
    greedy: u64,
) -> Result<(), String> {
    let weight = |rows: &[u16]| proved::tree_weight(modes, tree, rows)[2];
    let listed = terms.chunks(8).map(weight).sum();
    at_most("listed rows", greedy, listed)?;
    let operators: BTreeSet<Vec<u16>> = terms.chunks(8).map(surviving).collect();
    if 8 * operators.len() == terms.len() {
        at_most("tree weight", greedy, weight(terms))?;
    }
    Ok(())
}

/// The drops of each step, read off the tree: by the published rule a term is dropped where the first node stands that has all its leaves below it, by the keeping rule nowhere.
pub fn drops_of(modes: usize, rule: usize, rows: &[[u16; 4]], terms: &[u16]) -> Vec<u16> {
    let mut drops = vec![0; modes];
    if rule != PUBLISHED {
        return drops;
    }
    let mut parents = vec![None; 3 * modes];
    for (place, &code) in tree_of_rows(rows).iter().enumerate() {
        // the absent child is no node and no leaf
        if let Some(parent) = parents.get_mut(usize::from(code)) {
            *parent = Some(place / 3);
        }
    }
    let above = |code: usize| std::iter::successors(parents[code], |&node| parents[node]);
    for term in terms.chunks(8) {
        let mut leaves = term[1..=usize::from(term[0])]
            .iter()
            .map(|&leaf| usize::from(leaf) + modes);
        let first = leaves.next().expect("a term has an index");
        let mut common: Vec<usize> = above(first).collect();
        for leaf in leaves {
            let nodes: BTreeSet<usize> = above(leaf).collect();
            common.retain(|node| nodes.contains(node));
        }
        drops[common[0]] += 1;
    }
    drops
}

/// Of few modes, the tree weighs no less than the best of all lawful sequences of merges, as the plain program finds it. (Of 4 it would take too long for every case.)
pub fn not_below_best(modes: usize, tree: &[u16], terms: &[u16]) -> Result<(), String> {
    if modes > 3 {
        return Ok(());
    }
    let found = plain::best(modes, terms).expect("good terms of few modes");
    let weight = proved::tree_weight(modes, tree, terms)[2];
    at_most("the best there is", found.least, weight)
}

/// The indices that occur an odd number of times in a row.
fn surviving(row: &[u16]) -> Vec<u16> {
    let indices = &row[1..=usize::from(row[0])];
    let runs = indices.chunk_by(|a, b| a == b);
    runs.filter(|run| run.len() % 2 == 1)
        .map(|run| run[0])
        .collect()
}

fn at_most(what: &str, greedy: u64, weight: u64) -> Result<(), String> {
    equal(what, greedy.max(weight), weight)
}
