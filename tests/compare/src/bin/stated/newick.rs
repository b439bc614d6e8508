//! Newick texts read: one node in its room and in less, and a text of each refusal.

use crate::seen::{fronted, numbers_lent, Cases, Seen};
use compare::cases::ABSENT;
use compare::{numbers, proved};

/// The numbers of one node's table.
const ROOM: usize = 3;

/// A text, and the number and place of its refusal.
const REFUSED: &[(&str, &str, [u64; 2])] = &[
    ("nothing", "", [19, 0]),
    ("a leaf", "m0;", [19, 0]),
    ("a text that stops short", "(m0,m1,e)n0", [19, 11]),
    ("a number led by 0", "(m01,m1,e)n0;", [19, 3]),
    ("a number above 65535", "(m65536,m1,e)n0;", [19, 6]),
    ("a length", "(m0:1,m1,e)n0;", [19, 3]),
    ("a comment", "(m0[x],m1,e)n0;", [19, 3]),
    ("a space", "(m0, m1,e)n0;", [19, 4]),
    ("a byte behind the text", "(m0,m1,e)n0;x", [19, 12]),
    ("a node of absent children", "(m0,(e,e,e)n1,e)n0;", [15, 0]),
    ("a label out of range", "(m0,m1,e)n1;", [15, 0]),
    ("a leaf out of range", "(m0,m2,e)n0;", [15, 0]),
    ("a leaf twice", "(m0,m0,e)n0;", [15, 0]),
    ("a pair exchanged", "(m1,m0,e)n0;", [16, 0]),
];

pub fn hold(cases: &mut Cases) {
    let one = "(m0,m1,e)n0;";
    hold_one(cases, "one node", one, ROOM, [0, 0, 1], &[1, 2, ABSENT]);
    hold_one(cases, "room for less", one, ROOM - 1, [5, 0, 0], &[]);
    let most = "(".repeat(256);
    let crowded = format!("{most}(m0");
    hold_one(cases, "a node too many", &crowded, ROOM, [1, 256, 0], &[]);
    hold_one(cases, "as many as may be", &most, ROOM, [19, 256, 0], &[]);
    for &(what, text, [number, place]) in REFUSED {
        hold_one(cases, what, text, ROOM, [number, place, 0], &[]);
    }
}

/// What the call must answer, and the front of the table then.
fn hold_one(
    cases: &mut Cases,
    what: &str,
    text: &str,
    room: usize,
    answer: [u64; 3],
    front: &[u16],
) {
    let ours = read(room, |table| proved::read_newick(text.as_bytes(), table));
    let plainly = read(room, |table| {
        let modes = plain::read_newick(text.as_bytes(), table);
        numbers(modes.map(|modes| modes as u64))
    });
    let stated = Seen {
        numbers: answer.to_vec(),
        lent: vec![fronted(front, room)],
    };
    cases.hold("Newick texts", what, [ours, plainly], stated);
}

/// A side's call.
fn read(room: usize, call: impl Fn(&mut [u16]) -> [u64; 3]) -> Seen {
    let mut table = numbers_lent(room);
    let numbers = call(&mut table).to_vec();
    let lent = vec![table];
    Seen { numbers, lent }
}
