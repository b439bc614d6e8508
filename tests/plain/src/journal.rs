//! The journal: its lines read, obeyed, written and looked up; resuming, and HATT as resuming from an empty journal.

use crate::merging::{Merge, Merging};
use crate::refusal::{check_modes, check_rooms, demand, Refusal};
use crate::terms::{read_terms, work_room, Row, Rule, ROW_NUMBERS};

pub const TAB: u8 = 9;
pub const LINE_FEED: u8 = 10;

/// "Resuming returns rows, weight, trials, kept bytes (through the last LF) and new bytes".
#[derive(Clone, Copy, Debug, PartialEq, Eq)]
pub struct Done {
    pub weight: u64,
    pub trials: u64,
    pub kept: usize,
    pub new: usize,
}

/// "The HATT call is resuming from an empty journal."
pub fn hatt(
    modes: usize,
    rule: usize,
    terms: &[u16],
    work: &mut [u16],
    rows: &mut [u16],
    journal: &mut [u8],
    drops: &mut [u16],
) -> Result<Done, Refusal> {
    resume(modes, rule, terms, &[], work, rows, journal, drops)
}

/// Obeys the complete lines of `read`, goes on by greedy steps, and writes rows, new lines and the drops of each step.
pub fn resume(
    modes: usize,
    rule: usize,
    terms: &[u16],
    read: &[u8],
    work: &mut [u16],
    rows: &mut [u16],
    journal: &mut [u8],
    drops: &mut [u16],
) -> Result<Done, Refusal> {
    check_modes(modes)?;
    let rule = Rule::read(rule)?;
    let given = read_terms(modes, terms)?;
    // "Room: ... rows 4n; ... journal bytes 16 + 21n", and of 02 work and "a lent table of n numbers".
    check_rooms(&[
        (work.len(), work_room(terms)),
        (rows.len(), 4 * modes),
        (journal.len(), 16 + 21 * modes),
        (drops.len(), modes),
    ])?;
    let kept = kept_part(read);
    let mut merging = obey(modes, rule, given, kept)?;

    // Nothing refuses from here on, so the lent slices may be written.
    let mut new = Vec::new();
    if kept.is_empty() {
        write_header(&mut new, rule, modes, terms.len() / ROW_NUMBERS);
    }
    let trials = run(&mut merging, &mut new);
    work[..work_room(terms)].fill(0);
    rows[..4 * modes].copy_from_slice(&merging.flatpack().concat());
    journal[..new.len()].copy_from_slice(&new);
    drops[..modes].copy_from_slice(merging.drops());
    Ok(Done {
        weight: merging.greedy_weight(),
        trials,
        kept: kept.len(),
        new: new.len(),
    })
}

/// Makes the steps that are left, writes a line for each, and returns their trials.
fn run(merging: &mut Merging, new: &mut Vec<u8>) -> u64 {
    let mut trials = 0;
    while !merging.is_finished() {
        trials += merging.step();
        let step = merging.merges().len() - 1;
        write_merge(new, step, merging.merges()[step]);
    }
    trials
}

/// The state after the kept lines, or the refusal of the first bad one.
pub fn obey(modes: usize, rule: Rule, given: Vec<Row>, kept: &[u8]) -> Result<Merging, Refusal> {
    let terms = given.len();
    let mut merging = Merging::new(modes, rule, given);
    for (line, text) in complete_lines(kept).enumerate() {
        let fields = fields(text);
        if line == 0 {
            obey_header(modes, rule, terms, &fields)?;
        } else {
            obey_merge(&mut merging, line, &fields)?;
        }
    }
    Ok(merging)
}

/// "Header: `hatt`, `1`, n, T." A word that is no rule's or another version breaks the form, and "a
/// header with the other rule's word is 7".
fn obey_header(modes: usize, rule: Rule, terms: usize, fields: &[&[u8]]) -> Result<(), Refusal> {
    let is_word = |word: &[u8]| word == b"hatt" || word == b"keep";
    let named = fields.len() == 4 && is_word(fields[0]) && fields[1] == b"1";
    demand(named, 6, 0)?;
    let numbers = read_numbers(&fields[2..]).ok_or(Refusal {
        number: 6,
        place: 0,
    })?;
    let same = fields[0] == rule.word().as_bytes() && numbers == [modes as u16, terms as u16];
    demand(same, 7, 0)
}

/// "Then one line a merge: step, x, y, z, weight." Refusals 6 and 8 to 11 come in the order of
/// their numbers, "and 12 comes before 6 on its line".
fn obey_merge(merging: &mut Merging, line: usize, fields: &[&[u8]]) -> Result<(), Refusal> {
    demand(!merging.is_finished(), 12, line)?;
    let said = read_merge(fields).ok_or(Refusal {
        number: 6,
        place: line,
    })?;
    let triple = said.triple;
    demand(said.step == merging.merges().len(), 8, line)?;
    let all_open = triple.iter().all(|&child| merging.is_open(child));
    demand(all_open, 9, line)?;
    demand(merging.is_lawful(triple), 10, line)?;
    let weight = said.weight;
    demand(weight == merging.weigh(triple), 11, line)?;
    merging.merge(Merge { triple, weight });
    Ok(())
}

/// What a merge line says.
pub struct MergeLine {
    pub step: usize,
    pub triple: [u16; 3],
    pub weight: u64,
}

/// A merge line's five numbers, or None if it breaks the form.
pub fn read_merge(fields: &[&[u8]]) -> Option<MergeLine> {
    let [step, x, y, z, weight] = read_numbers(fields)?[..] else {
        return None;
    };
    Some(MergeLine {
        step: usize::from(step),
        triple: [x, y, z],
        weight: u64::from(weight),
    })
}

/// "Bytes after the last LF are dropped."
fn kept_part(read: &[u8]) -> &[u8] {
    let last = read.iter().rposition(|&byte| byte == LINE_FEED);
    &read[..last.map_or(0, |place| place + 1)]
}

/// The lines that are "each ended by LF", with their LF.
pub fn complete_lines(text: &[u8]) -> impl Iterator<Item = &[u8]> {
    kept_part(text).split_inclusive(|&byte| byte == LINE_FEED)
}

/// "fields parted by tabs, each [line] ended by LF".
pub fn fields(line: &[u8]) -> Vec<&[u8]> {
    let ended = &line[..line.len() - 1];
    ended.split(|&byte| byte == TAB).collect()
}

/// Every field as a number, or None if one isn't.
pub fn read_numbers(fields: &[&[u8]]) -> Option<Vec<u16>> {
    fields.iter().map(|field| read_number(field)).collect()
}

/// "Numbers are decimal, 1 to 5 digits, at most 65535, no leading zero except 0 itself."
pub fn read_number(field: &[u8]) -> Option<u16> {
    let length_is_good = (1..=5).contains(&field.len());
    if !length_is_good || (field[0] == b'0' && field.len() > 1) {
        return None;
    }
    let mut number: u32 = 0;
    for &byte in field {
        match byte {
            48..=57 => number = 10 * number + u32::from(byte - 48),
            _ => return None,
        }
    }
    u16::try_from(number).ok()
}

pub fn write_header(new: &mut Vec<u8>, rule: Rule, modes: usize, terms: usize) {
    let word = rule.word();
    new.extend(format!("{word}\t1\t{modes}\t{terms}\n").bytes());
}

pub fn write_merge(new: &mut Vec<u8>, step: usize, merge: Merge) {
    let [x, y, z] = merge.triple;
    let weight = merge.weight;
    new.extend(format!("{step}\t{x}\t{y}\t{z}\t{weight}\n").bytes());
}

/// "hands back the line, LF included, where it stands in either one; complete lines of the first
/// count before those of the second; a missing line gives an empty part".
pub fn find_line<'a>(kept: &'a [u8], new: &'a [u8], line: usize) -> &'a [u8] {
    let mut lines = complete_lines(kept).chain(complete_lines(new));
    lines.nth(line).unwrap_or(&[])
}
