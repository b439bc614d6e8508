//! W-213: every lawful sequence once, the least of their trees, its first sequence and how many reach it; refusals 1, 22, 2, 4 and 5.

mod common;

use common::*;
use plain::best::{best, best_into, sequences, table};
use plain::terms::work_room;
use plain::{hatt, tree_weight};
use std::collections::BTreeSet;

#[test]
fn so_many_sequences() {
    for (modes, count) in [(1, 1), (2, 6), (3, 90), (4, 2520)] {
        let all = sequences(modes);
        assert_eq!(all.len(), count);
        assert_eq!(all.iter().collect::<BTreeSet<_>>().len(), count);
    }
}

#[test]
fn the_first_of_the_lightest() {
    let found = best(2, &flat(&[&[0, 1], &[0, 3]])).unwrap();
    assert_eq!((found.least, found.reached), (2, 1));
    assert_eq!(found.first, [[0, 1, 3], [2, 5, 4]]);
    // without a term every sequence weighs nothing
    let none = best(3, &[]).unwrap();
    assert_eq!((none.least, none.reached), (0, 90));
    assert_eq!(none.first, [[0, 1, 2], [4, 5, 3], [7, 8, 6]]);
}

#[test]
fn greedy_is_not_below() {
    let terms = flat(&[&[0, 1], &[0, 3], &[1, 2, 5], &[2, 3, 4, 5]]);
    let (mut work, mut rows) = (vec![0; work_room(&terms)], vec![0; 12]);
    let (mut new, mut drops) = (vec![0; 16 + 21 * 3], vec![0; 3]);
    hatt(3, 0, &terms, &mut work, &mut rows, &mut new, &mut drops).unwrap();
    let mut tree = vec![0; 9];
    for row in rows.chunks(4) {
        let at = 3 * usize::from(row[0]);
        tree[at..at + 3].copy_from_slice(&row[1..]);
    }
    let found = best(3, &terms).unwrap();
    assert!(found.least <= tree_weight(3, &tree, &terms).unwrap());
    assert_eq!(
        tree_weight(3, &table(3, &found.first), &terms),
        Ok(found.least)
    );
}

#[test]
fn into_what_is_lent() {
    let terms = flat(&[&[0, 3]]);
    let mut lent = [9; 8];
    let found = best_into(2, &terms, &mut lent).unwrap();
    assert_eq!((found.least, found.reached), (1, 2));
    assert_eq!(lent, [0, 1, 3, 2, 5, 4, 9, 9]);
    let mut short = [9; 5];
    let number = |answer: Result<_, plain::Refusal>| answer.unwrap_err().number;
    assert_eq!(number(best_into(2, &terms, &mut short)), 5);
    assert_eq!(number(best_into(2, &flat(&[&[4]]), &mut short)), 4);
    assert_eq!(short, [9; 5]);
}

#[test]
fn refusals_in_their_order() {
    let number = |modes, terms: &[u16]| best(modes, terms).unwrap_err().number;
    assert_eq!(number(0, &[1]), 1);
    assert_eq!(number(5, &[1]), 22);
    assert_eq!(number(4, &[1]), 2);
    assert_eq!(number(4, &flat(&[&[8]])), 4);
}
