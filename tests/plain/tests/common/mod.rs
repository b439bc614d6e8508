//! Lent slices for the tests: filled with marks, one element longer than their room, and looked over after each call.
#![allow(dead_code)]

use plain::terms::work_room;
use plain::{Done, Refusal};

pub const MARK: u16 = 43690;
pub const BYTE_MARK: u8 = 170;

/// The code of the one absent child.
pub const ABSENT: u16 = 65535;

/// P3's terms: rows 01, 23, 0123.
pub const P3_ROWS: [&[u16]; 3] = [&[0, 1], &[2, 3], &[0, 1, 2, 3]];
pub const P3_JOURNAL: &str = "hatt\t1\t2\t3\n0\t0\t1\t2\t2\n1\t5\t3\t4\t2\n";
/// P3's tree by labels: 2,3,4; 0,5,-.
pub const P3_TREE: [u16; 6] = [2, 3, 4, 0, 5, ABSENT];

pub fn flat(rows: &[&[u16]]) -> Vec<u16> {
    let mut terms = Vec::new();
    for row in rows {
        terms.push(row.len() as u16);
        terms.extend_from_slice(row);
        terms.resize(terms.len().next_multiple_of(8), 0);
    }
    terms
}

pub fn p3() -> Vec<u16> {
    flat(&P3_ROWS)
}

/// The four slices that HATT and resume are lent.
#[derive(Clone, Debug, PartialEq)]
pub struct Lent {
    pub work: Vec<u16>,
    pub rows: Vec<u16>,
    pub journal: Vec<u8>,
    pub drops: Vec<u16>,
}

impl Lent {
    pub fn new(work: usize, rows: usize, journal: usize, drops: usize) -> Self {
        Lent {
            work: vec![MARK; work],
            rows: vec![MARK; rows],
            journal: vec![BYTE_MARK; journal],
            drops: vec![MARK; drops],
        }
    }

    /// One element above each room.
    pub fn ample(modes: usize, terms: &[u16]) -> Self {
        let modes = modes.min(300);
        let journal = 16 + 21 * modes + 1;
        Lent::new(work_room(terms) + 1, 4 * modes + 1, journal, modes + 1)
    }

    pub fn resume(&mut self, modes: usize, terms: &[u16], read: &str) -> Result<Done, Refusal> {
        self.resume_bytes(modes, terms, read.as_bytes())
    }

    pub fn resume_bytes(
        &mut self,
        modes: usize,
        terms: &[u16],
        read: &[u8],
    ) -> Result<Done, Refusal> {
        plain::resume(
            modes,
            0,
            terms,
            read,
            &mut self.work,
            &mut self.rows,
            &mut self.journal,
            &mut self.drops,
        )
    }
}

/// What an accepted call left behind.
#[derive(Debug, PartialEq)]
pub struct Accepted {
    pub done: Done,
    pub rows: Vec<[u16; 4]>,
    pub new: String,
    pub drops: Vec<u16>,
}

/// Resumes, and demands that the call succeeds and alters exactly what 01 says.
pub fn accepted(modes: usize, terms: &[u16], read: &str) -> Accepted {
    let mut lent = Lent::ample(modes, terms);
    let done = lent.resume(modes, terms, read).unwrap();
    let (zeros, beyond) = lent.work.split_at(work_room(terms));
    assert!(zeros.iter().all(|&number| number == 0));
    assert_eq!(beyond, [MARK]);
    let (rows, beyond) = lent.rows.split_at(4 * modes);
    assert_eq!(beyond, [MARK]);
    let (new, beyond) = lent.journal.split_at(done.new);
    assert!(beyond.iter().all(|&byte| byte == BYTE_MARK));
    let (drops, beyond) = lent.drops.split_at(modes);
    assert_eq!(beyond, [MARK]);
    let by_four = rows.chunks(4).map(|row| row.try_into().unwrap());
    Accepted {
        done,
        rows: by_four.collect(),
        new: String::from_utf8(new.to_vec()).unwrap(),
        drops: drops.to_vec(),
    }
}

/// The (number, place) by which a resume is refused; demands that no lent element is altered.
pub fn refused(modes: usize, terms: &[u16], read: &str) -> (u16, usize) {
    refused_with(Lent::ample(modes, terms), modes, terms, read)
}

pub fn refused_with(lent: Lent, modes: usize, terms: &[u16], read: &str) -> (u16, usize) {
    let mut used = lent.clone();
    let refusal = used.resume(modes, terms, read).unwrap_err();
    assert_eq!(used, lent);
    (refusal.number, refusal.place)
}

/// Assigns with lent slices of these lengths. A refusal must alter nothing; a success returns the
/// weight and the table.
pub fn assigned_with(
    lengths: (usize, usize),
    modes: usize,
    tree: &[u16],
    heuristic: usize,
    terms: &[u16],
) -> Result<(u64, Vec<u16>), (u16, usize)> {
    let mut work = vec![MARK; lengths.0];
    let mut table = vec![MARK; lengths.1];
    match plain::assign(modes, 0, tree, heuristic, terms, &mut work, &mut table) {
        Ok(weight) => {
            let (zeros, beyond) = work.split_at(work_room(terms));
            assert!(zeros.iter().all(|&number| number == 0));
            assert!(beyond.iter().all(|&number| number == MARK));
            let beyond = table.split_off(3 * modes);
            assert!(beyond.iter().all(|&number| number == MARK));
            Ok((weight, table))
        }
        Err(refusal) => {
            assert_eq!(work, vec![MARK; lengths.0]);
            assert_eq!(table, vec![MARK; lengths.1]);
            Err((refusal.number, refusal.place))
        }
    }
}

pub fn assigned(
    modes: usize,
    tree: &[u16],
    heuristic: usize,
    terms: &[u16],
) -> Result<(u64, Vec<u16>), (u16, usize)> {
    let lengths = (work_room(terms) + 1, 3 * modes + 1);
    assigned_with(lengths, modes, tree, heuristic, terms)
}
