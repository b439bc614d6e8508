//! The tree table: its check (refusals 1 and 13 to 16), and tree weight.

use crate::merging::ABSENT;
use crate::refusal::{check_modes, demand, Refusal};
use crate::terms::{read_terms, Row};
use std::collections::BTreeSet;

/// "The tree check and tree weight start 1, 13, 14, 15, 16".
pub fn check_tree(modes: usize, tree: &[u16]) -> Result<(), Refusal> {
    read_tree(modes, tree).map(|_| ())
}

/// Over every operator and "every node, 1 where the parities of the row's indices under X, Y, Z
/// aren't all equal". Tree weight continues 2, 3, 4.
pub fn tree_weight(modes: usize, tree: &[u16], terms: &[u16]) -> Result<u64, Refusal> {
    let tree = read_tree(modes, tree)?;
    let operators = operators(&read_terms(modes, terms)?);
    let mut weight = 0;
    for node in 0..modes {
        let under = [0, 1, 2].map(|edge| tree.leaves_under(tree.child(node, edge)));
        for operator in &operators {
            let odd = under.each_ref().map(|leaves| {
                let inside = operator.iter().filter(|index| leaves.contains(index));
                inside.count() % 2
            });
            weight += u64::from(odd != [odd[0]; 3]);
        }
    }
    Ok(weight)
}

/// "equal indices cancel in pairs, and rows with the same surviving indices are the same operator".
fn operators(rows: &[Row]) -> BTreeSet<BTreeSet<u16>> {
    rows.iter().map(|row| surviving(row)).collect()
}

fn surviving(row: &[u16]) -> BTreeSet<u16> {
    let mut indices = BTreeSet::new();
    for &index in row {
        if !indices.remove(&index) {
            indices.insert(index);
        }
    }
    indices
}

/// What hangs on one edge of a node.
#[derive(Clone, Copy, Debug, PartialEq, Eq)]
pub enum Child {
    Node(usize),
    Leaf(u16),
    Absent,
}

/// An accepted tree.
pub struct Tree {
    modes: usize,
    children: Vec<Child>,
    root: usize,
}

/// The tree that the table gives, or its refusal.
pub fn read_tree(modes: usize, table: &[u16]) -> Result<Tree, Refusal> {
    check_modes(modes)?;
    demand(table.len() == 3 * modes, 13, 0)?;
    for (index, &code) in table.iter().enumerate() {
        let known = usize::from(code) < 3 * modes || code == ABSENT;
        demand(known, 14, index)?;
    }
    let children = table.iter().map(|&code| read_child(modes, code)).collect();
    let tree = one_tree(modes, children).ok_or(Refusal {
        number: 15,
        place: 0,
    })?;
    for k in 0..modes {
        demand(tree.pair_is_right(k), 16, k)?;
    }
    Ok(tree)
}

/// "A child code is 0..n-1 for a node, n..3n-1 for leaf code minus n, or 65535 for the one absent child."
fn read_child(modes: usize, code: u16) -> Child {
    if code == ABSENT {
        Child::Absent
    } else if usize::from(code) < modes {
        Child::Node(usize::from(code))
    } else {
        Child::Leaf(code - modes as u16)
    }
}

/// "one root, every node reached, each other node and each leaf exactly once, one absent child".
fn one_tree(modes: usize, children: Vec<Child>) -> Option<Tree> {
    let times = |child: Child| children.iter().filter(|&&other| other == child).count();
    let leaves_once = (0..2 * modes).all(|leaf| times(Child::Leaf(leaf as u16)) == 1);
    let nodes_once_at_most = (0..modes).all(|node| times(Child::Node(node)) <= 1);
    let roots: Vec<usize> = (0..modes)
        .filter(|&node| times(Child::Node(node)) == 0)
        .collect();
    if !leaves_once || !nodes_once_at_most || times(Child::Absent) != 1 || roots.len() != 1 {
        return None;
    }
    let root = roots[0];
    let tree = Tree {
        modes,
        children,
        root,
    };
    // No node has two parents and the root has none, so this walk meets each node once at most.
    (tree.nodes_under(Child::Node(root)).len() == modes).then_some(tree)
}

impl Tree {
    pub fn root(&self) -> usize {
        self.root
    }

    /// The child of a node on edge 0 (X), 1 (Y) or 2 (Z).
    pub fn child(&self, node: usize, edge: usize) -> Child {
        self.children[3 * node + edge]
    }

    /// The nodes of a child's part of the tree, each before those below it.
    pub fn nodes_under(&self, child: Child) -> Vec<usize> {
        let mut waiting = vec![child];
        let mut nodes = Vec::new();
        while let Some(next) = waiting.pop() {
            if let Child::Node(node) = next {
                nodes.push(node);
                waiting.extend([0, 1, 2].map(|edge| self.child(node, edge)));
            }
        }
        nodes
    }

    fn leaves_under(&self, child: Child) -> Vec<u16> {
        if let Child::Leaf(leaf) = child {
            return vec![leaf];
        }
        let mut leaves = Vec::new();
        for node in self.nodes_under(child) {
            for edge in 0..3 {
                if let Child::Leaf(leaf) = self.child(node, edge) {
                    leaves.push(leaf);
                }
            }
        }
        leaves
    }

    /// Where the z-chain from a child ends: the child itself unless it is a node.
    fn chain_end(&self, mut child: Child) -> Child {
        while let Child::Node(node) = child {
            child = self.child(node, 2);
        }
        child
    }

    /// "leaves 2k and 2k+1 end the z-chains from one node's X and Y children, 2k under X".
    fn pair_is_right(&self, k: usize) -> bool {
        let even = 2 * k as u16;
        (0..self.modes).any(|node| {
            self.chain_end(self.child(node, 0)) == Child::Leaf(even)
                && self.chain_end(self.child(node, 1)) == Child::Leaf(even + 1)
        })
    }
}
