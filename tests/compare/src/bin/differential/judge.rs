//! A second reading of the journal, by text and not by bytes: a number is one that prints back as it stands.

use plain::merging::{Merge, Merging};
use plain::terms::{read_terms, Rule};
use plain::Refusal;

/// The state after the complete lines of a journal, or the refusal of the first bad one.
pub fn judge(modes: usize, terms: &[u16], read: &[u8]) -> Result<Merging, Refusal> {
    let rows = read_terms(modes, terms)?;
    let header = format!("hatt\t1\t{modes}\t{}", rows.len());
    let mut merging = Merging::new(modes, Rule::Published, rows);
    // A byte that is no text becomes a mark that no line of good form holds.
    let text = String::from_utf8_lossy(read);
    let mut lines: Vec<&str> = text.split('\n').collect();
    // What follows the last line feed is no line; without a line feed that is all.
    lines.pop();
    for (place, line) in lines.into_iter().enumerate() {
        let number = match place {
            0 => judge_header(line, &header),
            _ => judge_merge(line, &mut merging),
        };
        if let Err(number) = number {
            return Err(Refusal { number, place });
        }
    }
    Ok(merging)
}

/// The numbers of fields that are numbers: they print back as they stand.
fn numbers(fields: &[&str]) -> Option<Vec<u16>> {
    let number = |field: &&str| {
        let parsed: Option<u16> = field.parse().ok();
        parsed.filter(|number| number.to_string() == *field)
    };
    fields.iter().map(number).collect()
}

fn judge_header(line: &str, header: &str) -> Result<(), u16> {
    let rest = line.strip_prefix("hatt\t1\t").ok_or(6u16)?;
    let fields: Vec<&str> = rest.split('\t').collect();
    if fields.len() != 2 || numbers(&fields).is_none() {
        return Err(6);
    }
    if line != header {
        return Err(7);
    }
    Ok(())
}

/// Obeys a merge line, or gives the least number that speaks against it, 12 before all.
fn judge_merge(line: &str, merging: &mut Merging) -> Result<(), u16> {
    let step = merging.merges().len();
    let fields: Vec<&str> = line.split('\t').collect();
    let numbers = numbers(&fields).filter(|numbers| numbers.len() == 5);
    if merging.is_finished() {
        return Err(12);
    }
    let numbers = numbers.ok_or(6u16)?;
    let triple = [numbers[1], numbers[2], numbers[3]];
    let weight = u64::from(numbers[4]);
    if usize::from(numbers[0]) != step {
        return Err(8);
    }
    if triple.iter().any(|&child| !merging.is_open(child)) {
        return Err(9);
    }
    // Every lawful triple is named by some lawful pair.
    if !merging.lawful_pairs().contains(&triple) {
        return Err(10);
    }
    if merging.weigh(triple) != weight {
        return Err(11);
    }
    merging.merge(Merge { triple, weight });
    Ok(())
}
