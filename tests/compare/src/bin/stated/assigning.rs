//! Assignments: P9 under the other heuristics, the child that is node 0, and a refusal of each kind in its turn.

use crate::seen::{fronted, numbers_lent, Cases, Seen};
use compare::cases::ABSENT;
use compare::{numbers, proved};
use plain::terms::work_room;

/// P3's tree.
const TREE: [u16; 6] = [2, 3, 4, 0, 5, ABSENT];

/// P3's rows 01, 23, 0123.
const TERMS: [u16; 24] = [
    2, 0, 1, 0, 0, 0, 0, 0, 2, 2, 3, 0, 0, 0, 0, 0, 4, 0, 1, 2, 3, 0, 0, 0,
];

/// The numbers of the lent table.
const ROOM: usize = 6;

/// Node 1 is the root, and node 0 stands under its Z.
const UNDER_Z: [u16; 6] = [4, 5, ABSENT, 2, 3, 0];

/// Modes, tree, heuristic and terms; refusal, place and weight; the front of the table then.
type Case = (
    &'static str,
    usize,
    &'static [u16],
    usize,
    &'static [u16],
    [u64; 3],
    &'static [u16],
);

const CASES: &[Case] = &[
    ("P9 under x_first", 2, &TREE, 1, &TERMS, [0, 0, 2], &TREE),
    ("P9 under z_first", 2, &TREE, 2, &TERMS, [0, 0, 2], &TREE),
    (
        "the child that is node 0 stays the child",
        2,
        &UNDER_Z,
        0,
        &[],
        [0, 0, 0],
        &UNDER_Z,
    ),
    ("1 before 17", 0, &[], 3, &[], [1, 0, 0], &[]),
    ("13 before 17", 2, &[2, 3], 3, &[], [13, 0, 0], &[]),
    (
        "15 before 17",
        2,
        &[2, 3, 4, 0, 4, ABSENT],
        3,
        &[],
        [15, 0, 0],
        &[],
    ),
    (
        "16 before 17",
        2,
        &[3, 2, 4, 0, 5, ABSENT],
        3,
        &[],
        [16, 0, 0],
        &[],
    ),
    ("17 before 2", 2, &TREE, 3, &[1], [17, 0, 0], &[]),
    ("2 before 4", 2, &TREE, 0, &[1], [2, 0, 0], &[]),
    (
        "the index 2n",
        2,
        &TREE,
        0,
        &[1, 4, 0, 0, 0, 0, 0, 0],
        [4, 0, 0],
        &[],
    ),
    (
        "three nodes in a table of six",
        3,
        &[3, 4, 5, 0, 6, 7, 1, 8, ABSENT],
        0,
        &[],
        [5, 0, 0],
        &[],
    ),
];

/// The rule, and the rest as above: 20 in its turn, and a row that is left with only the parent.
const RULES: &[(usize, Case)] = &[
    (2, ("1 before 20", 0, &TREE, 0, &[], [1, 0, 0], &[])),
    (2, ("20 before 13", 2, &[], 3, &[], [20, 0, 0], &[])),
    (
        0,
        (
            "dropped, it weighs nothing",
            2,
            &TREE,
            0,
            &ONE,
            [0, 0, 0],
            &TREE,
        ),
    ),
    (
        1,
        (
            "kept, it weighs nothing either: the root is fixed with node 0 and goes unreduced",
            2,
            &TREE,
            0,
            &ONE,
            [0, 0, 0],
            &TREE,
        ),
    ),
];

/// The row 012.
const ONE: [u16; 8] = [3, 0, 1, 2, 0, 0, 0, 0];

pub fn hold(cases: &mut Cases) {
    let published = CASES.iter().map(|case| (0, *case));
    for (rule, case) in published.chain(RULES.iter().copied()) {
        let (what, modes, tree, heuristic, terms, answer, front) = case;
        let ours = assigned(terms, |work, table| {
            proved::assign(modes, rule, tree, heuristic, terms, work, table)
        });
        let plainly = assigned(terms, |work, table| {
            numbers(plain::assign(
                modes, rule, tree, heuristic, terms, work, table,
            ))
        });
        let work = match answer[0] {
            0 => vec![0; work_room(terms)],
            _ => numbers_lent(work_room(terms)),
        };
        let stated = Seen {
            numbers: answer.to_vec(),
            lent: vec![work, fronted(front, ROOM)],
        };
        cases.hold("assignments", what, [ours, plainly], stated);
    }
}

/// A side's call, with as much work as the terms ask for.
fn assigned(terms: &[u16], call: impl Fn(&mut [u16], &mut [u16]) -> [u64; 3]) -> Seen {
    let (mut work, mut table) = (numbers_lent(work_room(terms)), numbers_lent(ROOM));
    let numbers = call(&mut work, &mut table).to_vec();
    let lent = vec![work, table];
    Seen { numbers, lent }
}
