//! A list of trees and of what the proved library writes of them, for another reader of Newick texts.

use crate::trees::good_trees;
use compare::cases::Random;
use compare::proved;
use std::fs::File;
use std::io::{BufWriter, Result, Write};

const SEED: u64 = 7;

/// A line a tree, of 1 to 256 modes: modes, codes and text, parted by tabs; codes by spaces.
pub fn write(path: &str) -> Result<()> {
    let random = &mut Random::new(SEED);
    let mut list = BufWriter::new(File::create(path)?);
    for modes in 1..=256 {
        for tree in good_trees(random, modes) {
            let mut text = vec![0; 2 + 67 * modes];
            let [refused, _, count] = proved::write_newick(modes, &tree, &mut text);
            assert_eq!(refused, 0);
            let codes: Vec<String> = tree.iter().map(|code| code.to_string()).collect();
            write!(list, "{modes}\t{}\t", codes.join(" "))?;
            list.write_all(&text[..count as usize])?;
            writeln!(list)?;
        }
    }
    list.flush()
}
