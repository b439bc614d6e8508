//! What the two judges answer to a case: their numbers, every element of what was lent to them, and the way back.

use compare::{numbers, proved, BYTE_MARK, MARK};

/// A call.
#[derive(Clone, Copy, Debug)]
pub enum Case<'a> {
    /// A tree of so many modes written into so many bytes.
    Write(usize, &'a [u16], usize),
    /// A text read into a table of so many numbers.
    Read(&'a [u8], usize),
}

/// Refusal, place and count; the text and the table. One of these was lent to the call and begins as marks. The other is what
/// the way back gives of what the call wrote, and must be what the call was given; it is empty where the call was refused.
#[derive(Debug, Default, PartialEq)]
pub struct Answer {
    numbers: [u64; 3],
    text: Vec<u8>,
    table: Vec<u16>,
}

impl Answer {
    pub fn refused_by(&self) -> u64 {
        self.numbers[0]
    }
}

/// The proved library's.
pub fn ours(case: Case) -> Answer {
    let mut answer = called(case, proved::write_newick, proved::read_newick);
    let count = answer.numbers[2] as usize;
    match case {
        _ if answer.refused_by() != 0 => {}
        Case::Write(_, tree, _) => {
            answer.table = vec![MARK; tree.len()];
            proved::read_newick(&answer.text[..count], &mut answer.table);
        }
        Case::Read(text, _) => {
            answer.text = vec![BYTE_MARK; text.len()];
            proved::write_newick(count, &answer.table[..3 * count], &mut answer.text);
        }
    }
    answer
}

/// The plain program's; the way back is what was given.
pub fn plainly(case: Case) -> Answer {
    let mut answer = called(
        case,
        |modes, tree, text| counted(plain::write_newick(modes, tree, text)),
        |text, table| counted(plain::read_newick(text, table)),
    );
    match case {
        _ if answer.refused_by() != 0 => {}
        Case::Write(_, tree, _) => answer.table = tree.to_vec(),
        Case::Read(text, _) => answer.text = text.to_vec(),
    }
    answer
}

/// What a judge's call answers and leaves in the slice that it was lent; the way back is still to go.
fn called(
    case: Case,
    write: impl Fn(usize, &[u16], &mut [u8]) -> [u64; 3],
    read: impl Fn(&[u8], &mut [u16]) -> [u64; 3],
) -> Answer {
    let mut answer = Answer::default();
    answer.numbers = match case {
        Case::Write(modes, tree, room) => {
            answer.text = vec![BYTE_MARK; room];
            write(modes, tree, &mut answer.text)
        }
        Case::Read(text, room) => {
            answer.table = vec![MARK; room];
            read(text, &mut answer.table)
        }
    };
    answer
}

fn counted(answer: Result<usize, plain::Refusal>) -> [u64; 3] {
    numbers(answer.map(|count| count as u64))
}
