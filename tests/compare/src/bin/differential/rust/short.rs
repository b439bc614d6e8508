//! HATT on all short inputs of the fewest modes.

use super::hatt::compare_hatt;
use super::Terms;
use crate::tally::Tally;
use compare::cases::Random;

/// All rows of up to so many indices below 2n, none descending.
fn all_rows(modes: usize, most: usize) -> Terms {
    let mut rows: Terms = Vec::new();
    let mut longest: Terms = vec![vec![]];
    for _ in 0..most {
        let mut longer = Vec::new();
        for row in &longest {
            for index in row.last().copied().unwrap_or(0)..2 * modes as u16 {
                longer.push([row.as_slice(), &[index]].concat());
            }
        }
        rows.extend(longer.iter().cloned());
        longest = longer;
    }
    rows
}

/// Every list of up to two rows, of up to seven indices for 1 mode and of up to three for 2 modes.
pub fn on_all_short(_: &mut Random, tally: &mut Tally) {
    for (modes, most_indices, most_rows) in [(1, 7, 2), (2, 3, 2)] {
        let rows = all_rows(modes, most_indices);
        let mut lists: Vec<Terms> = vec![vec![]];
        let mut longest = lists.clone();
        for _ in 0..most_rows {
            longest = longest
                .iter()
                .flat_map(|list| {
                    rows.iter()
                        .map(|row| [list.as_slice(), &[row.clone()]].concat())
                })
                .collect();
            lists.extend(longest.iter().cloned());
        }
        for list in &lists {
            compare_hatt(
                tally,
                "HATT on all short inputs of 1 and 2 modes",
                modes,
                list,
            );
        }
    }
}
