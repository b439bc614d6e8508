//! Tree tables checked and weighed: P1's tree, rows of one operator, and a table of each refusal.

use crate::seen::{Cases, Seen};
use compare::cases::ABSENT;
use compare::{numbers, proved};

/// P3's tree.
const TREE: [u16; 6] = [2, 3, 4, 0, 5, ABSENT];

/// A table and rows of terms, and refusal, place and weight that the tree weight answers.
type Weighed = (
    &'static str,
    usize,
    &'static [u16],
    &'static [u16],
    [u64; 3],
);

/// The tree is accepted; 2 and 4 are the terms'.
const ACCEPTED: &[Weighed] = &[
    (
        "P1's tree",
        1,
        &[1, 2, ABSENT],
        &[2, 0, 1, 0, 0, 0, 0, 0],
        [0, 0, 1],
    ),
    (
        "P4's row listed twice",
        2,
        &[2, 3, 5, 4, 0, ABSENT],
        &[1, 2, 0, 0, 0, 0, 0, 0, 1, 2, 0, 0, 0, 0, 0, 0],
        [0, 0, 1],
    ),
    (
        "a row and the same with a pair of equal indices",
        2,
        &TREE,
        &[2, 0, 3, 0, 0, 0, 0, 0, 4, 0, 1, 1, 3, 0, 0, 0],
        [0, 0, 2],
    ),
    ("a row that isn't whole", 2, &TREE, &[1, 2], [2, 0, 0]),
    (
        "the index 2n in row 1",
        2,
        &TREE,
        &[1, 3, 0, 0, 0, 0, 0, 0, 1, 4, 0, 0, 0, 0, 0, 0],
        [4, 1, 0],
    ),
];

/// A table that both calls refuse, with the refusal's number and place.
type Refused = (&'static str, usize, &'static [u16], [u64; 2]);

const REFUSED: &[Refused] = &[
    ("no modes", 0, &[], [1, 0]),
    ("one more than 256", 257, &TREE, [1, 0]),
    ("3n - 1 numbers", 2, &[2, 3, 4, 0, 5], [13, 0]),
    (
        "the code 3n, at its index",
        2,
        &[2, 3, 4, 0, 6, ABSENT],
        [14, 4],
    ),
    (
        "a cycle of two nodes beside a tree",
        3,
        &[3, 4, ABSENT, 5, 6, 2, 7, 8, 1],
        [15, 0],
    ),
    ("a node under itself", 2, &[2, 3, ABSENT, 4, 5, 1], [15, 0]),
    ("a leaf twice", 2, &[2, 3, 4, 0, 4, ABSENT], [15, 0]),
    (
        "the absent child twice",
        2,
        &[2, 3, ABSENT, 0, 5, ABSENT],
        [15, 0],
    ),
    ("two roots", 2, &[2, 3, 4, 5, 5, ABSENT], [15, 0]),
    ("2k under Y", 2, &[3, 2, 4, 0, 5, ABSENT], [16, 0]),
    (
        "2k under Y at the ends of z-chains",
        2,
        &[2, 3, 5, 0, 4, ABSENT],
        [16, 1],
    ),
];

pub fn hold(cases: &mut Cases) {
    for &(what, modes, tree, terms, weighed) in ACCEPTED {
        hold_one(cases, what, (modes, tree, terms), [0, 0, 0], weighed);
    }
    for &(what, modes, tree, [number, place]) in REFUSED {
        let both = [number, place, 0];
        hold_one(cases, what, (modes, tree, &[]), both, both);
    }
}

/// What the check and the weight must answer, three numbers each.
fn hold_one(
    cases: &mut Cases,
    what: &str,
    (modes, tree, terms): (usize, &[u16], &[u16]),
    checked: [u64; 3],
    weighed: [u64; 3],
) {
    let ours = [
        proved::check_tree(modes, tree),
        proved::tree_weight(modes, tree, terms),
    ];
    let plainly = [
        numbers(plain::check_tree(modes, tree).map(|()| 0)),
        numbers(plain::tree_weight(modes, tree, terms)),
    ];
    let [ours, plainly, stated] =
        [ours, plainly, [checked, weighed]].map(|six| Seen::told(six.as_flattened()));
    cases.hold("trees", what, [ours, plainly], stated);
}
