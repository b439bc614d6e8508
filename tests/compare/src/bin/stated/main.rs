//! Holds the proved library and the plain program against answers that are written down, kind by kind, and prints how many cases were held.

mod assigning;
mod best;
mod journals;
mod merges;
mod newick;
mod seen;
mod trees;

use seen::Cases;

fn main() {
    let mut cases = Cases::default();
    merges::hold(&mut cases);
    journals::hold(&mut cases);
    trees::hold(&mut cases);
    assigning::hold(&mut cases);
    newick::hold(&mut cases);
    best::hold(&mut cases);
    assert_eq!(cases.print(), 0);
}
