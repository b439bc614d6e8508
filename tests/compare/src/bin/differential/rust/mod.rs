//! HATT's rows and weight and assign's table and weight, plain program against oracle.

pub mod assign;
pub mod hatt;
pub mod short;

use crate::tally::guarded;

type Terms = Vec<Vec<u16>>;

/// Terms in a list of the small inputs: none, few, or enough that ties are rare.
const COUNTS: [usize; 10] = [0, 1, 2, 3, 4, 6, 9, 14, 25, 45];

/// Fewer modes count as smaller before fewer terms do.
fn size_of(modes: usize, terms: &Terms) -> usize {
    10_000 * modes + terms.len()
}

/// The terms without those rows that the disagreement does not need.
fn smallest(terms: &Terms, agrees: impl Fn(&Terms) -> Result<(), String>) -> Terms {
    let mut least = terms.clone();
    let mut row = 0;
    while row < least.len() {
        let mut fewer = least.clone();
        fewer.remove(row);
        if guarded(|| agrees(&fewer)).is_err() {
            least = fewer;
        } else {
            row += 1;
        }
    }
    least
}
