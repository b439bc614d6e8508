//! P3's call resumed from journals: cut, whole, and refused by 5, 6, 7, 9, 10, 12 and 20.

use crate::seen::{bytes_fronted, bytes_lent, fronted, numbers_lent, widened, Cases, Seen};
use compare::cases::{flat, ABSENT};
use compare::{proved, six_numbers};

const MODES: usize = 2;
const HEADER: &str = "hatt\t1\t2\t3\n";
/// Of four terms.
const ANOTHER_HEADER: &str = "hatt\t1\t2\t4\n";
const FIRST: &str = "0\t0\t1\t2\t2\n";
const SECOND: &str = "1\t5\t3\t4\t2\n";
const ROWS: [u16; 8] = [1, 0, 5, ABSENT, 0, 2, 3, 4];

/// 01 drops at step 0, the other two at step 1.
const DROPS: [u16; 2] = [1, 2];

/// The lengths of what is lent, but for the rows'.
#[derive(Clone, Copy)]
struct Rooms {
    work: usize,
    journal: usize,
    drops: usize,
}

/// "9T work numbers", "journal room 58 passes for n=2, 57 is 5", "a lent table of n numbers".
const EXACT: Rooms = Rooms {
    work: 27,
    journal: 58,
    drops: 2,
};

pub fn hold(cases: &mut Cases) {
    by_rule(cases);
    let whole = [HEADER, FIRST, SECOND].concat();
    let cut = format!("{HEADER}0\t0");
    let lines = [FIRST, SECOND].concat();
    let header_kept = "cut before its LF: the header is kept";
    goes_on(cases, header_kept, &cut, [0, 0, 4, 14, 11, 20], &lines);
    let nothing_left = "whole: nothing is left to do";
    goes_on(cases, nothing_left, &whole, [0, 0, 4, 0, 31, 0], "");
    in_too_little_room(cases);
    let after_header = |line| format!("{HEADER}{line}");
    let refusals = [
        ("one number", after_header("0\n"), [6, 1]),
        ("another header", ANOTHER_HEADER.to_string(), [7, 0]),
        (
            "the other rule's header",
            "keep\t1\t2\t3\n".to_string(),
            [7, 0],
        ),
        ("no rule's header", "help\t1\t2\t3\n".to_string(), [6, 0]),
        (
            "a child that isn't open",
            after_header("0\t0\t1\t5\t2\n"),
            [9, 1],
        ),
        (
            "x and y exchanged",
            after_header("0\t1\t0\t2\t2\n"),
            [10, 1],
        ),
        ("a line too many", whole + "\n", [12, 3]),
    ];
    for (what, read, refusal) in refusals {
        refused(cases, what, &read, EXACT, refusal);
    }
}

/// 5 comes before what the journal's lines are refused by.
fn in_too_little_room(cases: &mut Cases) {
    let journal = Rooms {
        journal: 57,
        ..EXACT
    };
    let work = Rooms { work: 26, ..EXACT };
    let drops = Rooms { drops: 1, ..EXACT };
    for (what, rooms) in [
        ("a byte too little for the journal", journal),
        ("work below nine numbers a term", work),
        ("a drop too little room", drops),
    ] {
        refused(cases, what, ANOTHER_HEADER, rooms, [5, 0]);
    }
}

/// Rules by their numbers: 20 comes after 1 and before any other.
fn by_rule(cases: &mut Cases) {
    let stated = [
        ("1 before 20", 0, 2, [1, 0]),
        ("20 before 2", 2, 2, [20, 0]),
    ];
    for (what, modes, rule, [number, place]) in stated {
        let terms = [1];
        let answers = [
            proved::resume(modes, rule, &terms, &[], &mut [], &mut [], &mut [], &mut []),
            six_numbers(plain::resume(
                modes,
                rule,
                &terms,
                &[],
                &mut [],
                &mut [],
                &mut [],
                &mut [],
            )),
        ];
        let seen = |numbers: [u64; 6]| Seen {
            numbers: numbers.to_vec(),
            lent: vec![],
        };
        let stated = seen([number, place, 0, 0, 0, 0]);
        cases.hold("journals", what, answers.map(seen), stated);
    }
}

/// A journal that is accepted: the six numbers, P3's rows and drops and these new lines; work is zero.
fn goes_on(cases: &mut Cases, what: &str, read: &str, answer: [u64; 6], new: &str) {
    let lent = vec![
        vec![0; EXACT.work],
        ROWS.to_vec(),
        bytes_fronted(new.as_bytes(), EXACT.journal),
        DROPS.to_vec(),
    ];
    let numbers = answer.to_vec();
    hold_one(cases, what, read, EXACT, Seen { numbers, lent });
}

/// A journal that is refused: nothing is altered.
fn refused(cases: &mut Cases, what: &str, read: &str, rooms: Rooms, [number, place]: [u64; 2]) {
    let lent = vec![
        fronted(&[], rooms.work),
        fronted(&[], ROWS.len()),
        bytes_fronted(&[], rooms.journal),
        fronted(&[], rooms.drops),
    ];
    let numbers = vec![number, place, 0, 0, 0, 0];
    hold_one(cases, what, read, rooms, Seen { numbers, lent });
}

fn hold_one(cases: &mut Cases, what: &str, read: &str, rooms: Rooms, stated: Seen) {
    let (terms, read) = (terms(), read.as_bytes());
    let ours = resumed(rooms, |work, rows, journal, drops| {
        proved::resume(MODES, 0, &terms, read, work, rows, journal, drops)
    });
    let plainly = resumed(rooms, |work, rows, journal, drops| {
        let answer = plain::resume(MODES, 0, &terms, read, work, rows, journal, drops);
        six_numbers(answer)
    });
    cases.hold("journals", what, [ours, plainly], stated);
}

/// P3's rows 01, 23, 0123.
fn terms() -> Vec<u16> {
    flat(&[vec![0, 1], vec![2, 3], vec![0, 1, 2, 3]])
}

/// A side's call in these rooms, and in as much for the rows as 01 asks for.
fn resumed(
    rooms: Rooms,
    call: impl Fn(&mut [u16], &mut [u16], &mut [u8], &mut [u16]) -> [u64; 6],
) -> Seen {
    let (mut work, mut rows) = (numbers_lent(rooms.work), numbers_lent(ROWS.len()));
    let (mut journal, mut drops) = (bytes_lent(rooms.journal), numbers_lent(rooms.drops));
    let numbers = call(&mut work, &mut rows, &mut journal, &mut drops).to_vec();
    let lent = vec![work, rows, widened(&journal), drops];
    Seen { numbers, lent }
}
