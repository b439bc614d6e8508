//! Terms: the check of given rows (refusals 2, 3 and 4), the weight of a triple in rows, and reduction.

use crate::refusal::{demand, Refusal};
use std::collections::HashMap;

/// The indices of one term, without the length before them and the zeros behind them.
pub type Row = Vec<u16>;

/// "Terms T: 0 to 2048."
pub const MOST_TERMS: usize = 2048;

/// A row's longest list of indices.
pub const MAX_MAJORANAS: usize = 7;

/// "in rows of eight u16: a length 1 to 7, that many indices, then zeros".
pub const ROW_NUMBERS: usize = MAX_MAJORANAS + 1;

/// 02: "5 now asks for 9T work numbers, of assign too".
pub fn work_room(terms: &[u16]) -> usize {
    (ROW_NUMBERS + 1) * (terms.len() / ROW_NUMBERS)
}

/// A row that is worked on, and 02's "count of input rows merged into it".
#[derive(Clone, Debug, PartialEq, Eq)]
pub struct WorkRow {
    pub row: Row,
    pub count: u16,
}

/// Input rows as work rows: each stands for itself.
pub fn each_once(rows: Vec<Row>) -> Vec<WorkRow> {
    let once = |row| WorkRow { row, count: 1 };
    rows.into_iter().map(once).collect()
}

/// Reads the flat numbers as rows, or refuses by 2, 3 or 4.
pub fn read_terms(modes: usize, terms: &[u16]) -> Result<Vec<Row>, Refusal> {
    demand(terms.len().is_multiple_of(ROW_NUMBERS), 2, 0)?;
    demand(terms.len() / ROW_NUMBERS <= MOST_TERMS, 3, 0)?;
    let mut rows = Vec::new();
    for (place, numbers) in terms.chunks(ROW_NUMBERS).enumerate() {
        demand(is_good_row(modes, numbers), 4, place)?;
        let length = usize::from(numbers[0]);
        rows.push(numbers[1..=length].to_vec());
    }
    Ok(rows)
}

/// "Indices are below 2n and never descend; equal indices and equal rows are allowed";
/// "empty terms are refused everywhere".
fn is_good_row(modes: usize, numbers: &[u16]) -> bool {
    let length = usize::from(numbers[0]);
    if !(1..=MAX_MAJORANAS).contains(&length) {
        return false;
    }
    let (indices, rest) = numbers[1..].split_at(length);
    indices.iter().all(|&index| usize::from(index) < 2 * modes)
        && indices.windows(2).all(|two| two[0] <= two[1])
        && rest.iter().all(|&number| number == 0)
}

/// "of the three, count those that occur an odd number of times; 1 if that count is 1 or 2, else 0".
pub fn qubit_term_weight(row: &[u16], triple: [u16; 3]) -> u64 {
    let mut odd = [false; 3];
    for &index in row {
        odd[0] ^= index == triple[0];
        odd[1] ^= index == triple[1];
        odd[2] ^= index == triple[2];
    }
    let count = u64::from(odd[0]) + u64::from(odd[1]) + u64::from(odd[2]);
    u64::from(count == 1 || count == 2)
}

/// "Its weight is the sum over rows."
pub fn weigh(rows: &[WorkRow], triple: [u16; 3]) -> u64 {
    let weight = |work: &WorkRow| qubit_term_weight(&work.row, triple);
    rows.iter().map(weight).sum()
}

/// "Under the published rule a row left with only the parent is dropped …. a second rule … keeps such rows".
#[derive(Clone, Copy, Debug, PartialEq, Eq)]
pub enum Rule {
    Published,
    Keep,
}

impl Rule {
    /// 20 "where the rule isn't 0 (published) or 1 (keep)".
    pub fn read(number: usize) -> Result<Self, Refusal> {
        demand(number < 2, 20, 0)?;
        Ok([Rule::Published, Rule::Keep][number])
    }

    /// "The header's first word becomes `keep` for the second rule."
    pub fn word(self) -> &'static str {
        match self {
            Rule::Published => "hatt",
            Rule::Keep => "keep",
        }
    }

    /// "rows with all numbers equal to the parent (a single one too) are dropped", by the published rule.
    pub fn drops(self, row: &[u16], parent: u16) -> bool {
        self == Rule::Published && row.iter().all(|&index| index == parent)
    }
}

/// "each of the three numbers becomes the parent, multiplicity kept, the row sorted; rows with all
/// numbers equal to the parent (a single one too) are dropped", if the rule drops them; "then equal
/// rows become one". The rows that are left, and "the sum of the counts of the rows dropped".
///
/// Of equal rows the first stays where it is, and stands for all that they stood for.
pub fn reduce_hamiltonian(
    rows: Vec<WorkRow>,
    rule: Rule,
    parent: u16,
    triple: [u16; 3],
) -> (Vec<WorkRow>, u16) {
    let mut left: Vec<WorkRow> = Vec::new();
    let mut dropped = 0;
    let mut places: HashMap<Row, usize> = HashMap::new();
    for WorkRow { row, count } in rows {
        let row = replace(row, parent, triple);
        if rule.drops(&row, parent) {
            dropped += count;
        } else if let Some(&first) = places.get(&row) {
            left[first].count += count;
        } else {
            places.insert(row.clone(), left.len());
            left.push(WorkRow { row, count });
        }
    }
    (left, dropped)
}

/// One row with the parent in the place of each of the three, sorted.
pub fn replace(mut row: Row, parent: u16, triple: [u16; 3]) -> Row {
    for index in &mut row {
        if triple.contains(index) {
            *index = parent;
        }
    }
    row.sort_unstable();
    row
}
