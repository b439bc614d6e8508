//! The program's text: its standard input read, and its answer printed.

use crate::journal::{fields, hatt, read_numbers, Done, LINE_FEED};
use crate::merging::ABSENT;
use crate::refusal::{demand, Refusal};
use crate::terms::{work_room, MAX_MAJORANAS, MOST_TERMS, ROW_NUMBERS};

/// What the program `hatt` prints for this standard input.
pub fn program(input: &[u8]) -> Vec<u8> {
    let printed = match answer(input) {
        Ok((done, rows)) => print_answer(done, &rows),
        Err(refusal) => print_refusal(refusal),
    };
    printed.into_bytes()
}

/// "A refusal prints `refused`, number, place."
pub fn print_refusal(Refusal { number, place }: Refusal) -> String {
    format!("refused\t{number}\t{place}\n")
}

fn answer(input: &[u8]) -> Result<(Done, Vec<u16>), Refusal> {
    // Malformed text is refused "at the first such line and before any other number".
    let (modes, terms) = read_input(input)?;
    let mut work = vec![0; work_room(&terms)];
    let mut rows = vec![0; 4 * modes];
    let mut journal = vec![0; 16 + 21 * modes];
    let mut drops = vec![0; modes];
    let done = hatt(
        modes,
        0,
        &terms,
        &mut work,
        &mut rows,
        &mut journal,
        &mut drops,
    )?;
    Ok((done, rows))
}

/// "first line `modes` TAB n, then `term` TAB indices".
pub fn read_input(input: &[u8]) -> Result<(usize, Vec<u16>), Refusal> {
    // "empty input is 18 at line 0"
    demand(!input.is_empty(), 18, 0)?;
    let mut modes = 0;
    let mut terms = Vec::new();
    let lines = input.split_inclusive(|&byte| byte == LINE_FEED);
    for (line, text) in lines.enumerate() {
        let malformed = Refusal {
            number: 18,
            place: line,
        };
        // "a last line without LF is 18"
        demand(text.ends_with(&[LINE_FEED]), 18, line)?;
        if line == 0 {
            modes = read_modes(text).ok_or(malformed)?;
        } else {
            // "more than 2048 terms": line 0 isn't a term, so line 2048 holds the last one.
            demand(line <= MOST_TERMS, 18, line)?;
            terms.extend(read_term(text).ok_or(malformed)?);
        }
    }
    Ok((modes, terms))
}

fn read_modes(line: &[u8]) -> Option<usize> {
    match read_named(line, b"modes")?[..] {
        [modes] => Some(usize::from(modes)),
        _ => None,
    }
}

/// The row of eight numbers for one term. "No index, more than seven ... is 18".
fn read_term(line: &[u8]) -> Option<[u16; ROW_NUMBERS]> {
    let indices = read_named(line, b"term")?;
    if indices.is_empty() || indices.len() > MAX_MAJORANAS {
        return None;
    }
    let mut row = [0; ROW_NUMBERS];
    row[0] = indices.len() as u16;
    row[1..=indices.len()].copy_from_slice(&indices);
    Some(row)
}

/// The numbers of a line behind its first word; "numbers as in the journal".
fn read_named(line: &[u8], word: &[u8]) -> Option<Vec<u16>> {
    let fields = fields(line);
    if fields[0] != word {
        return None;
    }
    read_numbers(&fields[1..])
}

/// "Fields: greedy weight; trials; label, X, Y, Z codes."
pub fn print_answer(done: Done, rows: &[u16]) -> String {
    format!("weight\t{}\ntrials\t{}\n", done.weight, done.trials) + &node_lines(rows)
}

/// A line for each row: "label, X, Y, Z codes".
pub fn node_lines(rows: &[u16]) -> String {
    let mut printed = String::new();
    for row in rows.chunks(4) {
        let [x, y, z] = [row[1], row[2], row[3]].map(print_code);
        printed += &format!("node\t{}\t{x}\t{y}\t{z}\n", row[0]);
    }
    printed
}

/// "Text writes "-" for [the absent child]."
fn print_code(code: u16) -> String {
    if code == ABSENT {
        "-".to_string()
    } else {
        code.to_string()
    }
}
