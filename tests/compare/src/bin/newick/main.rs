//! Compares what the proved Newick calls and the plain program answer, kind by kind, and prints how many cases agreed.
//! With the name of a file it also lists there trees and what the proved library writes of them.

mod damage;
mod judges;
mod listed;
mod texts;
mod trees;

use compare::Kinds;
use judges::{ours, plainly, Case};

fn main() {
    let mut kinds = Kinds::new();
    let mut ask = |kind, case: Case| {
        let sides = [ours(case), plainly(case)];
        let refused = sides[1].refused_by();
        kinds.compare(kind, refused, sides, || format!("{case:?}"));
    };
    trees::each(&mut ask);
    texts::each(&mut ask);
    let disagreed = kinds.print("refused by");
    if let Some(path) = std::env::args().nth(1) {
        listed::write(&path).expect("the list can be written");
    }
    assert_eq!(disagreed, 0);
}
