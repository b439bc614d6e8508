//! Tree tables that document 01 accepts: X, Y and Z child codes of node 0 to n-1.

use super::Random;

/// The code of the one absent child, and of a slot that has no child yet.
pub const ABSENT: u16 = 65535;

const X: usize = 0;
const Y: usize = 1;
const Z: usize = 2;

/// Where the next node of a growing tree goes.
#[derive(Debug, Clone, Copy, PartialEq, Eq)]
pub enum Growth {
    /// To any free slot.
    Any,
    /// To any slot of the newest node.
    Deep,
    /// To the free slot nearest to the root, so that many nodes are equally far from it.
    Level,
    /// To the X slot of the newest node.
    ChainX,
    /// To the Y slot of the newest node.
    ChainY,
    /// To the Z slot of the newest node.
    ChainZ,
}

pub const GROWTHS: [Growth; 6] = [
    Growth::Any,
    Growth::Deep,
    Growth::Level,
    Growth::ChainX,
    Growth::ChainY,
    Growth::ChainZ,
];

/// An accepted tree of so many modes, its node labels and its modes in any order.
pub fn tree(random: &mut Random, modes: usize, growth: Growth) -> Vec<u16> {
    let mut tree = grown(random, modes, growth);
    place_leaves(&mut tree, &random.permutation(modes));
    permute_labels(&tree, &random.permutation(modes))
}

/// An accepted tree of any growth.
pub fn any_tree(random: &mut Random, modes: usize) -> Vec<u16> {
    let growth = random.one_of(&GROWTHS);
    tree(random, modes, growth)
}

/// The same tree with node v called permutation[v].
pub fn permute_labels(tree: &[u16], permutation: &[usize]) -> Vec<u16> {
    let mut permuted = vec![ABSENT; tree.len()];
    for (slot, &code) in tree.iter().enumerate() {
        let label = permutation.get(code as usize).map(|&label| label as u16);
        permuted[3 * permutation[slot / 3] + slot % 3] = label.unwrap_or(code);
    }
    permuted
}

/// HATT's rows (label, X, Y, Z) laid out by label.
pub fn tree_of_rows(rows: &[[u16; 4]]) -> Vec<u16> {
    let mut tree = vec![ABSENT; 3 * rows.len()];
    for [label, children @ ..] in rows {
        let first = 3 * *label as usize;
        tree[first..first + 3].copy_from_slice(children);
    }
    tree
}

/// A tree of nodes alone, node 0 its root, each other node in a slot that the growth names.
fn grown(random: &mut Random, modes: usize, growth: Growth) -> Vec<u16> {
    let mut tree = vec![ABSENT; 3 * modes];
    for node in 1..modes {
        let newest = 3 * (node - 1);
        let slot = match growth {
            Growth::Any => random.one_of(&free_slots(&tree[..3 * node])),
            Growth::Deep => newest + random.below(3),
            Growth::Level => free_slots(&tree[..3 * node])[0],
            Growth::ChainX => newest + X,
            Growth::ChainY => newest + Y,
            Growth::ChainZ => newest + Z,
        };
        tree[slot] = node as u16;
    }
    tree
}

/// The slots that have no child yet.
fn free_slots(tree: &[u16]) -> Vec<usize> {
    (0..tree.len())
        .filter(|&slot| tree[slot] == ABSENT)
        .collect()
}

/// Puts leaves 2k and 2k+1 at the ends of the z-chains from X and Y of the node that has mode k, which leaves the root's z-chain without one.
fn place_leaves(tree: &mut [u16], mode_of_node: &[usize]) {
    let modes = mode_of_node.len();
    for (node, mode) in mode_of_node.iter().enumerate() {
        for edge in [X, Y] {
            let end = z_end(tree, modes, 3 * node + edge);
            tree[end] = (modes + 2 * mode + edge) as u16;
        }
    }
}

/// The slot that ends the z-chain which a slot begins.
fn z_end(tree: &[u16], modes: usize, slot: usize) -> usize {
    let mut end = slot;
    while (tree[end] as usize) < modes {
        end = 3 * tree[end] as usize + Z;
    }
    end
}

/// The tree with one code replaced by any of its own or by one that no tree has.
pub fn replace_code(random: &mut Random, mut tree: Vec<u16>) -> Vec<u16> {
    let at = random.below(tree.len());
    let most = tree.len() as u16;
    let any = random.below(tree.len() + 1) as u16;
    tree[at] = random.one_of(&[any, any, any, most, 256, 65534, ABSENT]);
    tree
}

/// The tree with one to three pairs of codes exchanged.
pub fn exchange_codes(random: &mut Random, mut tree: Vec<u16>) -> Vec<u16> {
    for _ in 0..random.between(1, 3) {
        let (at, other) = (random.below(tree.len()), random.below(tree.len()));
        tree.swap(at, other);
    }
    tree
}

/// The tree a code too long or too short.
pub fn change_length(random: &mut Random, mut tree: Vec<u16>) -> Vec<u16> {
    match random.below(2) {
        0 => drop(tree.pop()),
        _ => tree.push(random.below(tree.len()) as u16),
    }
    tree
}
