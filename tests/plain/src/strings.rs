//! The Pauli strings of an accepted tree's Majoranas (docs/02, W-211), found by walking down from the root.

use crate::refusal::{check_rooms, Refusal};
use crate::tree::{read_tree, Child, Tree};

/// "one record a line: the number, a tab, then n letters I, X, Y, Z by node label".
pub fn strings(modes: usize, tree: &[u16]) -> Result<String, Refusal> {
    let tree = read_tree(modes, tree)?;
    let mut strings = vec![String::new(); 2 * modes];
    let mut letters = vec!['I'; modes];
    walk(&tree, Child::Node(tree.root()), &mut letters, &mut strings);
    let lines = strings.iter().enumerate();
    Ok(lines
        .map(|(majorana, string)| format!("{majorana}\t{string}\n"))
        .collect())
}

/// The same into a lent text: "1, 13 to 16, then 5, as elsewhere". How many bytes were written.
pub fn write_strings(modes: usize, tree: &[u16], text: &mut [u8]) -> Result<usize, Refusal> {
    let written = strings(modes, tree)?;
    check_rooms(&[(text.len(), written.len())])?;
    text[..written.len()].copy_from_slice(written.as_bytes());
    Ok(written.len())
}

/// "A node off the leaf's path gives I, on the path the letter of the edge taken."
fn walk(tree: &Tree, child: Child, letters: &mut [char], strings: &mut [String]) {
    match child {
        Child::Absent => (),
        Child::Leaf(leaf) => strings[usize::from(leaf)] = letters.iter().collect(),
        Child::Node(node) => {
            for (edge, letter) in ['X', 'Y', 'Z'].into_iter().enumerate() {
                letters[node] = letter;
                walk(tree, tree.child(node, edge), letters, strings);
            }
            letters[node] = 'I';
        }
    }
}
