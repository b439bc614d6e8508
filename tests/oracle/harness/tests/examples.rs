//! Document 01's examples hold of the oracle.

use oracle::{assign, hatt, ABSENT};

/// The terms of example P3.
fn p3_terms() -> Vec<Vec<u16>> {
    vec![vec![0, 1], vec![2, 3], vec![0, 1, 2, 3]]
}

/// The tree of example P3.
const P3_TREE: [u16; 6] = [2, 3, 4, 0, 5, ABSENT];

#[test]
fn p1_one_mode() {
    assert_eq!(hatt(1, &[vec![0, 1]]), (vec![[0, 1, 2, ABSENT]], 1));
}

#[test]
fn p2_equal_rows_count_twice_in_step_0() {
    let terms = [vec![0, 1], vec![0, 1]];
    assert_eq!(hatt(1, &terms), (vec![[0, 1, 2, ABSENT]], 2));
}

#[test]
fn p3_two_modes() {
    let rows = vec![[1, 0, 5, ABSENT], [0, 2, 3, 4]];
    assert_eq!(hatt(2, &p3_terms()), (rows, 4));
}

#[test]
fn p4_equal_rows_count_once_after_step_0() {
    let rows = vec![[1, 4, 0, ABSENT], [0, 2, 3, 5]];
    assert_eq!(hatt(2, &[vec![2], vec![2]]), (rows, 1));
}

#[test]
fn p8_assign_one_row() {
    for heuristic in 0..3 {
        let table = vec![4, 5, 2, 0, 3, ABSENT];
        assert_eq!(assign(2, &P3_TREE, heuristic, &[vec![1]]), (table, 0));
    }
}

#[test]
fn p9_assign_changes_nothing() {
    for heuristic in 0..3 {
        let answer = assign(2, &P3_TREE, heuristic, &p3_terms());
        assert_eq!(answer, (P3_TREE.to_vec(), 2));
    }
}

#[test]
fn a_slot_whose_chosen_child_is_node_0_keeps_it() {
    let tree = [4, 5, ABSENT, 2, 3, 0];
    for heuristic in 0..3 {
        assert_eq!(assign(2, &tree, heuristic, &[]), (tree.to_vec(), 0));
    }
}
