//! The best of all sequences: of one and two modes, worked out by hand, and a refusal of each kind in its turn.

use crate::seen::{fronted, numbers_lent, Cases, Seen};
use compare::{four_numbers, proved};

/// Modes, terms and the numbers lent; refusal, place, least weight and how many reach it; the front of the lent numbers then.
type Case = (
    &'static str,
    usize,
    &'static [u16],
    usize,
    [u64; 4],
    &'static [u16],
);

/// The row 03. The six sequences of two modes weigh 2, 1, 2, 1, 2 and 2 with it, in their order.
const CROSSED: [u16; 8] = [2, 0, 3, 0, 0, 0, 0, 0];

/// The rows 01 and 03: the second sequence weighs 2, the others 3 and more.
const BOTH: [u16; 16] = [2, 0, 1, 0, 0, 0, 0, 0, 2, 0, 3, 0, 0, 0, 0, 0];

/// The row 3 and, of two modes, the index 2n.
const INDEX: [u16; 16] = [1, 3, 0, 0, 0, 0, 0, 0, 1, 4, 0, 0, 0, 0, 0, 0];

/// One row too many, and none of them good.
const CROWDED: [u16; 8 * 2049] = [0; 8 * 2049];

const CASES: &[Case] = &[
    (
        "one mode has one sequence",
        1,
        &[2, 0, 1, 0, 0, 0, 0, 0],
        3,
        [0, 0, 1, 1],
        &[0, 1, 2],
    ),
    (
        "the first of two that weigh least",
        2,
        &CROSSED,
        6,
        [0, 0, 1, 2],
        &[0, 1, 3, 2, 5, 4],
    ),
    (
        "numbers behind the sequence stay",
        2,
        &CROSSED,
        9,
        [0, 0, 1, 2],
        &[0, 1, 3, 2, 5, 4],
    ),
    (
        "one that alone weighs least",
        2,
        &BOTH,
        6,
        [0, 0, 2, 1],
        &[0, 1, 3, 2, 5, 4],
    ),
    (
        "without a term all six weigh nothing",
        2,
        &[],
        6,
        [0, 0, 0, 6],
        &[0, 1, 2, 5, 3, 4],
    ),
    ("1 before 2", 0, &[1], 12, [1, 0, 0, 0], &[]),
    ("22 before 2", 5, &[1], 15, [22, 0, 0, 0], &[]),
    ("22 in the place of 1", 257, &[], 15, [22, 0, 0, 0], &[]),
    ("2 before 5", 4, &[1], 11, [2, 0, 0, 0], &[]),
    ("3 before 4", 4, &CROWDED, 12, [3, 0, 0, 0], &[]),
    ("4 before 5", 2, &INDEX, 5, [4, 1, 0, 0], &[]),
    (
        "a number too little room",
        2,
        &CROSSED,
        5,
        [5, 0, 0, 0],
        &[],
    ),
];

pub fn hold(cases: &mut Cases) {
    for &(what, modes, terms, room, answer, front) in CASES {
        let ours = found(room, |sequence| proved::best(modes, terms, sequence));
        let plainly = found(room, |sequence| {
            four_numbers(plain::best_into(modes, terms, sequence))
        });
        let stated = Seen {
            numbers: answer.to_vec(),
            lent: vec![fronted(front, room)],
        };
        cases.hold("best", what, [ours, plainly], stated);
    }
}

/// A side's call.
fn found(room: usize, call: impl Fn(&mut [u16]) -> [u64; 4]) -> Seen {
    let mut sequence = numbers_lent(room);
    let numbers = call(&mut sequence).to_vec();
    let lent = vec![sequence];
    Seen { numbers, lent }
}
