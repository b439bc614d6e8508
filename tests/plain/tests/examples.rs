//! 01's examples P1 to P10.

mod common;

use common::*;
use plain::Done;

#[test]
fn p1() {
    let answer = accepted(1, &flat(&[&[0, 1]]), "");
    assert_eq!(answer.new, "hatt\t1\t1\t1\n0\t0\t1\t2\t1\n");
    assert_eq!(answer.rows, [[0, 1, 2, ABSENT]]);
    let new = answer.new.len();
    let done = Done {
        weight: 1,
        trials: 2,
        kept: 0,
        new,
    };
    assert_eq!(answer.done, done);
}

#[test]
fn p2() {
    let answer = accepted(1, &flat(&[&[0, 1], &[0, 1]]), "");
    assert_eq!(answer.done.weight, 2);
}

#[test]
fn p3_greedy_and_tree_weight() {
    let answer = accepted(2, &p3(), "");
    assert_eq!(answer.new, P3_JOURNAL);
    assert_eq!(answer.rows, [[1, 0, 5, ABSENT], [0, 2, 3, 4]]);
    assert_eq!((answer.done.weight, answer.done.trials), (4, 14));
    assert_eq!(plain::tree_weight(2, &P3_TREE, &p3()), Ok(4));
}

#[test]
fn p4() {
    let terms = flat(&[&[2], &[2]]);
    let answer = accepted(2, &terms, "");
    assert_eq!(answer.new, "hatt\t1\t2\t2\n0\t0\t1\t3\t0\n1\t2\t5\t4\t1\n");
    assert_eq!(answer.done.weight, 1);
    let tree = [2, 3, 5, 4, 0, ABSENT];
    assert_eq!(answer.rows, [[1, 4, 0, ABSENT], [0, 2, 3, 5]]);
    assert_eq!(plain::tree_weight(2, &tree, &terms), Ok(1));
}

/// 02: "equal indices cancel in pairs, and rows with the same surviving indices are the same operator".
#[test]
fn operators_count_once() {
    let weight = |terms: &[&[u16]]| plain::tree_weight(2, &P3_TREE, &flat(terms));
    let once = weight(&[&[0], &[0, 3]]);
    assert_eq!(once, Ok(4));
    assert_eq!(weight(&[&[0, 3], &[0], &[0]]), once);
    assert_eq!(weight(&[&[0], &[0, 1, 1, 3], &[0, 0, 0]]), once);
    assert_eq!(weight(&[&[0], &[0, 3], &[2, 2], &[1, 1, 3, 3]]), once);
}

#[test]
fn p5() {
    let read = "hatt\t1\t2\t3\n0\t0\t1\t4\t2\n";
    let answer = accepted(2, &p3(), read);
    assert_eq!(answer.new, "1\t2\t3\t5\t2\n");
    assert_eq!(answer.rows, [[1, 4, 5, 0], [0, 2, 3, ABSENT]]);
    let done = Done {
        weight: 4,
        trials: 2,
        kept: read.len(),
        new: 10,
    };
    assert_eq!(answer.done, done);
}

#[test]
fn p6() {
    let read = "hatt\t1\t2\t3\n0\t0\t1\t4\t1\n";
    assert_eq!(refused(2, &p3(), read), (11, 1));
}

#[test]
fn p7() {
    let read = "hatt\t1\t2\t3\n1\t5\t3\t4\t2\n0\t0\t1\t2\t2\n";
    assert_eq!(refused(2, &p3(), read), (8, 1));
}

#[test]
fn p8() {
    let answer = assigned(2, &P3_TREE, 0, &flat(&[&[1]]));
    assert_eq!(answer, Ok((0, vec![4, 5, 2, 0, 3, ABSENT])));
}

#[test]
fn p9() {
    for heuristic in 0..3 {
        let answer = assigned(2, &P3_TREE, heuristic, &p3());
        assert_eq!(answer, Ok((2, P3_TREE.to_vec())));
    }
}

/// "j(j+1)(4j-1)/3"
fn formula(left: u64) -> u64 {
    (left * (left + 1) * (4 * left).saturating_sub(1)) / 3
}

#[test]
fn p10_by_formula() {
    assert_eq!(formula(256), 22435072);
}

/// The same total from the lawful pairs themselves, with no row to weigh.
#[test]
fn p10_by_counting() {
    assert_eq!(accepted(256, &[], "").done.trials, 22435072);
}

#[test]
fn trials_of_every_small_run() {
    for modes in 1..=24 {
        let trials = accepted(modes, &[], "").done.trials;
        assert_eq!(trials, formula(modes as u64), "n = {modes}");
    }
}
