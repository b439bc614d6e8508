//! `resume`, of which `hatt` is the case of an empty journal.

use super::{from_c, BEYOND, PUBLISHED};
use crate::finished::drops_of;
use crate::tally::equal;
use compare::proved::{self, c};
use compare::{six_numbers, BYTE_MARK, MARK};
use plain::terms::work_room;
use plain::{Done, Refusal};

/// What an accepted resume left behind.
#[derive(Clone, Debug, PartialEq)]
pub struct Finished {
    pub done: Done,
    pub rows: Vec<[u16; 4]>,
    pub new: Vec<u8>,
}

/// The lengths of work, rows, journal and drops that a call is lent.
#[derive(Clone, Copy, Debug)]
pub struct Rooms {
    pub work: usize,
    pub rows: usize,
    pub journal: usize,
    pub drops: usize,
}

/// The slices that a call is lent.
struct Lent {
    work: Vec<u16>,
    rows: Vec<u16>,
    journal: Vec<u8>,
    drops: Vec<u16>,
}

impl Rooms {
    /// A little more than is asked for.
    fn ample(modes: usize, terms: &[u16]) -> Self {
        Rooms {
            work: work_room(terms) + BEYOND,
            rows: 4 * modes + BEYOND,
            journal: 16 + 21 * modes + BEYOND,
            drops: modes + BEYOND,
        }
    }

    fn marked(self) -> Lent {
        Lent {
            work: vec![MARK; self.work],
            rows: vec![MARK; self.rows],
            journal: vec![BYTE_MARK; self.journal],
            drops: vec![MARK; self.drops],
        }
    }
}

/// Resumes where 01 leaves no ground for a refusal.
pub fn accepted(modes: usize, terms: &[u16], read: &[u8]) -> Result<Finished, String> {
    resume(modes, terms, read)?.map_err(|refusal| format!("refused: {refusal:?}"))
}

/// Resumes with ample room. The outer error says that an element was altered which should not have been, or that the proved library answers or leaves anything else.
pub fn resume(
    modes: usize,
    terms: &[u16],
    read: &[u8],
) -> Result<Result<Finished, Refusal>, String> {
    resume_in(modes, terms, read, Rooms::ample(modes, terms))
}

/// The same by the rule of this number.
pub fn resume_by(
    rule: usize,
    modes: usize,
    terms: &[u16],
    read: &[u8],
) -> Result<Result<Finished, Refusal>, String> {
    resume_all(rule, modes, terms, read, Rooms::ample(modes, terms))
}

/// By the published rule, with these rooms.
pub fn resume_in(
    modes: usize,
    terms: &[u16],
    read: &[u8],
    rooms: Rooms,
) -> Result<Result<Finished, Refusal>, String> {
    resume_all(PUBLISHED, modes, terms, read, rooms)
}

fn resume_all(
    rule: usize,
    modes: usize,
    terms: &[u16],
    read: &[u8],
    rooms: Rooms,
) -> Result<Result<Finished, Refusal>, String> {
    let mut left = rooms.marked();
    let answer = plain::resume(
        modes,
        rule,
        terms,
        read,
        &mut left.work,
        &mut left.rows,
        &mut left.journal,
        &mut left.drops,
    );
    let call = Call {
        modes,
        rule,
        terms,
        read,
        rooms,
        numbers: six_numbers(answer),
        left: &left,
    };
    call.proved_alike()?;
    call.c_alike()?;
    looked_over(modes, rule, terms, answer, &left)
}

/// What an accepted call left, once it is seen that nothing else was altered.
fn looked_over(
    modes: usize,
    rule: usize,
    terms: &[u16],
    answer: Result<Done, Refusal>,
    left: &Lent,
) -> Result<Result<Finished, Refusal>, String> {
    let (written, new) = match answer {
        Ok(done) => (1, done.new),
        Err(_) => (0, 0),
    };
    let (zeros, work_beyond) = left.work.split_at(written * work_room(terms));
    let (rows, rows_beyond) = left.rows.split_at(written * 4 * modes);
    let (new, journal_beyond) = left.journal.split_at(new);
    let (drops, drops_beyond) = left.drops.split_at(written * modes);
    let stayed = work_beyond.iter().all(|&number| number == MARK)
        && rows_beyond.iter().all(|&number| number == MARK)
        && drops_beyond.iter().all(|&number| number == MARK)
        && journal_beyond.iter().all(|&byte| byte == BYTE_MARK);
    equal("elements that stay, stay", stayed, true)?;
    let zeroed = zeros.iter().all(|&number| number == 0);
    equal("work is zero", zeroed, true)?;
    let by_four = |row: &[u16]| [row[0], row[1], row[2], row[3]];
    let rows: Vec<[u16; 4]> = rows.chunks(4).map(by_four).collect();
    if answer.is_ok() {
        equal("drops", drops, &drops_of(modes, rule, &rows, terms)[..])?;
    }
    Ok(answer.map(|done| Finished {
        done,
        rows,
        new: new.to_vec(),
    }))
}

/// A call that was made of the plain program: what it was given, what it answered, and what it left of the slices.
struct Call<'a> {
    modes: usize,
    rule: usize,
    terms: &'a [u16],
    read: &'a [u8],
    rooms: Rooms,
    numbers: [u64; 6],
    left: &'a Lent,
}

impl Call<'_> {
    /// The proved call, with slices as they were lent: the same numbers, and every element as the plain program left it.
    fn proved_alike(&self) -> Result<(), String> {
        let mut lent = self.rooms.marked();
        let Call {
            modes,
            rule,
            terms,
            read,
            ..
        } = *self;
        let proved = proved::resume(
            modes,
            rule,
            terms,
            read,
            &mut lent.work,
            &mut lent.rows,
            &mut lent.journal,
            &mut lent.drops,
        );
        equal("proved numbers", proved, self.numbers)?;
        equal("proved work", &lent.work, &self.left.work)?;
        equal("proved rows", &lent.rows, &self.left.rows)?;
        equal("proved journal", &lent.journal, &self.left.journal)?;
        equal("proved drops", &lent.drops, &self.left.drops)
    }

    /// The same of the call for C.
    fn c_alike(&self) -> Result<(), String> {
        // Work and drops are that call's own, so that too little of them can't be lent; and it knows the published rule alone.
        let too_little = self.rooms.work < work_room(self.terms) || self.rooms.drops < self.modes;
        if too_little || self.rule != PUBLISHED {
            return Ok(());
        }
        let mut rows = vec![BYTE_MARK; 2 * self.rooms.rows];
        let mut journal = vec![BYTE_MARK; self.rooms.journal];
        let mut answer = from_c::marked_answer(4);
        let Call {
            modes, terms, read, ..
        } = *self;
        let result = c::resume(modes, terms, read, &mut rows, &mut journal, &mut answer);
        from_c::tells(result, &answer, &self.numbers)?;
        equal("C rows", rows, c::two_bytes(&self.left.rows))?;
        equal("C journal", &journal, &self.left.journal)
    }
}
