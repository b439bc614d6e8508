//! The letters of a step: which Pauli each live row got.

use crate::merging::Merge;
use crate::terms::{replace, Row, Rule};
use std::collections::HashSet;

/// A row that is live, and its place among the input's.
type Placed = (usize, Row);

/// "a single odd child gives its own letter, two odd children give the third letter, none or three
/// give none": none is `-`.
pub fn letter(row: &[u16], triple: [u16; 3]) -> char {
    let is_odd = triple.map(|child| row.iter().filter(|&&index| index == child).count() % 2 == 1);
    let odd = is_odd.iter().filter(|&&odd| odd).count();
    // the one that is odd alone, or the one that is not while the two others are
    let sought = match odd {
        1 => true,
        2 => false,
        _ => return '-',
    };
    let place = is_odd.iter().position(|&odd| odd == sought);
    ['X', 'Y', 'Z'][place.expect("one of the three")]
}

/// The rows that are live before a step, in their order, each by "the lowest input row that it
/// stands for".
fn live_before(modes: usize, rule: Rule, rows: &[Row], merges: &[Merge]) -> Vec<Placed> {
    let mut live: Vec<Placed> = rows.iter().cloned().enumerate().collect();
    for (step, merge) in merges.iter().enumerate() {
        let parent = (2 * modes + 1 + step) as u16;
        let mut seen = HashSet::new();
        live = live
            .into_iter()
            .map(|(place, row)| (place, replace(row, parent, merge.triple)))
            .filter(|(_, row)| !rule.drops(row, parent))
            .filter(|(_, row)| seen.insert(row.clone()))
            .collect();
    }
    live
}

/// The lines of a step: a live row's place, a tab and its letter.
pub fn letter_lines(
    modes: usize,
    rule: Rule,
    rows: &[Row],
    merges: &[Merge],
    step: usize,
) -> String {
    live_before(modes, rule, rows, &merges[..step])
        .iter()
        .map(|(place, row)| format!("{place}\t{}\n", letter(row, merges[step].triple)))
        .collect()
}
