//! 01's boundaries: the last number that passes and the first that is refused.

use crate::calls::{resume_in, Rooms};
use crate::tally::{equal, Tally};
use compare::cases::{flat, Random};
use plain::Refusal;

/// A call, and what it must come to: 0, or the refusal's number.
struct Boundary {
    modes: usize,
    terms: Vec<u16>,
    read: Vec<u8>,
    rooms: Rooms,
    wanted: u16,
}

impl Boundary {
    /// In exactly the rooms that are asked for.
    fn new(modes: usize, terms: &[Vec<u16>], read: &[u8], wanted: u16) -> Self {
        let rooms = Rooms {
            work: 9 * terms.len(),
            rows: 4 * modes,
            journal: 16 + 21 * modes,
            drops: modes,
        };
        Boundary {
            modes,
            terms: flat(terms),
            read: read.to_vec(),
            rooms,
            wanted,
        }
    }

    fn holds(&self) -> Result<(), String> {
        let answer = resume_in(self.modes, &self.terms, &self.read, self.rooms)?;
        let number = answer.map_or_else(|Refusal { number, .. }| number, |_| 0);
        equal("number", number, self.wanted)
    }
}

/// Each boundary as 01 lists it, from both sides.
pub fn boundaries(_: &mut Random, tally: &mut Tally) {
    let all = [of_modes(), of_terms(), of_lines(), of_rooms()];
    for boundary in all.iter().flatten() {
        let Boundary { modes, rooms, .. } = boundary;
        let input = || {
            format!(
                "modes {modes}, {} terms, {rooms:?}",
                boundary.terms.len() / 8
            )
        };
        tally.compare("boundaries of 01", *modes, input, || boundary.holds());
    }
}

/// "256 modes pass, 257 is 1", and none is 1 too.
fn of_modes() -> Vec<Boundary> {
    let boundary = |(modes, wanted)| Boundary::new(modes, &[], &[], wanted);
    [(0, 1), (1, 0), (256, 0), (257, 1)].map(boundary).into()
}

/// "index 2n-1 passes, 2n is 4"; seven indices pass, none is 4; "2048 terms pass, 2049 is 3".
fn of_terms() -> Vec<Boundary> {
    let one = |index: u16| vec![vec![index]];
    let lists = [
        (one(3), 0),
        (one(4), 4),
        (vec![vec![3; 7]], 0),
        (vec![vec![]], 4),
        (vec![vec![0]; 2048], 0),
        (vec![vec![0]; 2049], 3),
    ];
    let boundary = |(terms, wanted): (Vec<Vec<u16>>, u16)| Boundary::new(2, &terms, &[], wanted);
    lists.map(boundary).into()
}

/// "n lines pass, one more is 12".
fn of_lines() -> Vec<Boundary> {
    let journal = b"hatt\t1\t2\t0\n0\t0\t1\t2\t0\n1\t5\t3\t4\t0\n".as_slice();
    let one_more = [journal, b"\n"].concat();
    vec![
        Boundary::new(2, &[], journal, 0),
        Boundary::new(2, &[], &one_more, 12),
    ]
}

/// "journal room 58 passes for n=2, 57 is 5", and so with each other room.
fn of_rooms() -> Vec<Boundary> {
    let exact = Rooms {
        work: 9,
        rows: 8,
        journal: 58,
        drops: 2,
    };
    let lent = [
        (exact, 0),
        (
            Rooms {
                journal: 57,
                ..exact
            },
            5,
        ),
        (Rooms { rows: 7, ..exact }, 5),
        (Rooms { work: 8, ..exact }, 5),
        (Rooms { drops: 1, ..exact }, 5),
    ];
    let boundary = |(rooms, wanted)| Boundary {
        rooms,
        ..Boundary::new(2, &[vec![0, 1]], &[], wanted)
    };
    lent.map(boundary).into()
}
