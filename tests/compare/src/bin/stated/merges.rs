//! One merge each: a triple weighed in rows, and the rows reduced to its parent, each with how many it stands for; 01's slips among them.

use crate::seen::{Cases, Seen};
use compare::cases::flat;
use compare::{proved, MARK};
use plain::terms::{each_once, reduce_hamiltonian, weigh, work_room, Row, Rule};

/// So many that every index below is one of theirs, those that are parents among them.
const MODES: usize = 10;

/// The triple and its parent, the rows before, its weight in them, and the rows after, each behind how many it stands for. The others are dropped.
type Merge = (
    &'static str,
    [u16; 3],
    u16,
    &'static [&'static [u16]],
    u64,
    &'static [(u16, &'static [u16])],
);

const MERGES: &[Merge] = &[
    ("P1", [0, 1, 2], 3, &[&[0, 1]], 1, &[]),
    (
        "P2: the row twice weighs 2",
        [0, 1, 2],
        3,
        &[&[0, 1], &[0, 1]],
        2,
        &[],
    ),
    (
        "equal rows count twice in step 0",
        [0, 1, 4],
        5,
        &[&[0, 2], &[0, 2]],
        2,
        &[(2, &[2, 5])],
    ),
    ("and once afterwards", [2, 3, 5], 6, &[&[2, 5]], 1, &[]),
    (
        "P3, step 0: 3 5 and 3 5 5 5 would be one row if equal numbers cancelled",
        [0, 1, 2],
        5,
        &[&[0, 1], &[2, 3], &[0, 1, 2, 3]],
        2,
        &[(1, &[3, 5]), (1, &[3, 5, 5, 5])],
    ),
    (
        "P3, step 1",
        [5, 3, 4],
        6,
        &[&[3, 5], &[3, 5, 5, 5]],
        2,
        &[],
    ),
    (
        "P4, step 0: a one-index row stays until it is one of the triple",
        [0, 1, 3],
        5,
        &[&[2], &[2]],
        0,
        &[(2, &[2])],
    ),
    ("P4, step 1", [2, 5, 4], 6, &[&[2]], 1, &[]),
    (
        "P5, the step of its journal",
        [0, 1, 4],
        5,
        &[&[0, 1], &[2, 3], &[0, 1, 2, 3]],
        2,
        &[(1, &[2, 3]), (1, &[2, 3, 5, 5])],
    ),
    (
        "P5, the step after",
        [2, 3, 5],
        6,
        &[&[2, 3], &[2, 3, 5, 5]],
        2,
        &[],
    ),
    (
        "equal numbers inside a row are not cancelled",
        [0, 1, 4],
        5,
        &[&[0, 0, 2], &[2]],
        0,
        &[(1, &[2, 5, 5]), (1, &[2])],
    ),
    ("dropped: a single one", [0, 1, 4], 5, &[&[1]], 1, &[]),
    (
        "dropped: all parent by multiplicity",
        [0, 1, 4],
        5,
        &[&[0, 0, 1]],
        1,
        &[],
    ),
    (
        "dropped: all three, which weigh 0",
        [0, 1, 4],
        5,
        &[&[0, 1, 4]],
        0,
        &[],
    ),
    (
        "rows that become equal are one, and the first of them stays",
        [0, 1, 4],
        5,
        &[&[0, 2], &[3], &[1, 2]],
        2,
        &[(2, &[2, 5]), (1, &[3])],
    ),
    (
        "rows that are dropped beside rows that stay",
        [0, 1, 4],
        5,
        &[&[0, 2], &[1], &[0, 1], &[1, 2], &[0, 0, 4]],
        5,
        &[(2, &[2, 5])],
    ),
    (
        "a parent smaller than another number is sorted in, as in an assignment",
        [0, 1, 9],
        7,
        &[&[8, 9]],
        1,
        &[(1, &[7, 8])],
    ),
];

/// The same by the keeping rule.
const KEPT: &[Merge] = &[
    (
        "P1's row is kept",
        [0, 1, 2],
        3,
        &[&[0, 1]],
        1,
        &[(1, &[3, 3])],
    ),
    (
        "equal kept rows merge",
        [0, 1, 2],
        3,
        &[&[0], &[1], &[0, 1]],
        3,
        &[(2, &[3]), (1, &[3, 3])],
    ),
    (
        "and stand for all that they stood for",
        [0, 1, 2],
        3,
        &[&[0], &[4], &[1], &[2], &[4]],
        3,
        &[(3, &[3]), (2, &[4])],
    ),
];

pub fn hold(cases: &mut Cases) {
    hold_by(cases, Rule::Published, MERGES);
    hold_by(cases, Rule::Keep, KEPT);
}

fn hold_by(cases: &mut Cases, rule: Rule, merges: &[Merge]) {
    for &(what, triple, parent, before, weight, after) in merges {
        let before: Vec<Row> = before.iter().map(|row| row.to_vec()).collect();
        let sides = [
            ours(rule, triple, parent, &before),
            plainly(rule, triple, parent, &before),
        ];
        let after: Vec<Counted> = after.iter().map(|&(n, row)| (n, row.to_vec())).collect();
        let stays: u16 = after.iter().map(|row| row.0).sum();
        let dropped = before.len() as u64 - u64::from(stays);
        let stated = seen(weight, dropped, after, before.len());
        cases.hold("merges", what, sides, stated);
    }
}

/// How many a row stands for, and the row.
type Counted = (u16, Row);

/// Weight, how many were dropped and the number of rows; the rows themselves behind their counts, and zeros in the place of each row that went.
fn seen(weight: u64, dropped: u64, after: Vec<Counted>, before: usize) -> Seen {
    let gone = vec![0; 9 * (before - after.len())];
    let counted = |(count, row): Counted| [vec![count], row].concat();
    Seen {
        numbers: vec![weight, dropped, after.len() as u64],
        lent: after.into_iter().map(counted).chain([gone]).collect(),
    }
}

fn ours(rule: Rule, triple: [u16; 3], parent: u16, before: &[Row]) -> Seen {
    let terms = flat(before);
    let mut lent = vec![MARK; work_room(&terms)];
    let answer = proved::merge(MODES, rule as usize, &terms, &mut lent, triple, parent);
    let [refusal, weight, dropped] = answer;
    assert_eq!(refusal, 0, "the rows are good");
    // a row keeps its place, and one that went is zeros there
    let (there, gone): (Vec<&[u16]>, Vec<&[u16]>) = lent.chunks(9).partition(|row| row[0] != 0);
    // what stands between a row's own indices and its count is not promised
    let counted = |row: &&[u16]| [&row[8..], &row[1..=usize::from(row[0])]].concat();
    Seen {
        numbers: vec![weight, dropped, there.len() as u64],
        lent: there.iter().map(counted).chain([gone.concat()]).collect(),
    }
}

fn plainly(rule: Rule, triple: [u16; 3], parent: u16, before: &[Row]) -> Seen {
    let rows = each_once(before.to_vec());
    let weight = weigh(&rows, triple);
    let (left, dropped) = reduce_hamiltonian(rows, rule, parent, triple);
    let after = left
        .into_iter()
        .map(|work| (work.count, work.row))
        .collect();
    seen(weight, u64::from(dropped), after, before.len())
}
