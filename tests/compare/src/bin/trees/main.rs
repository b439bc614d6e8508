//! Compares what the proved tree calls and the plain program answer, kind by kind, and prints how many cases agreed.

mod judges;
mod tables;

use compare::Kinds;
use judges::{ours, plainly, Told};

fn main() {
    let mut kinds = Kinds::new();
    tables::each(&mut |kind, modes, tree, terms| {
        let sides = [ours(modes, tree, terms), plainly(modes, tree, terms)];
        // by the plain program: of the check, of the weight and of the strings
        let Told {
            check,
            weight,
            strings,
            ..
        } = &sides[1];
        let refused = (check[0], weight[0], strings[0]);
        kinds.compare(kind, refused, sides, || {
            format!("modes {modes}, tree {tree:?}, terms {terms:?}")
        });
    });
    assert_eq!(kinds.print("check, weight and strings refused by"), 0);
}
