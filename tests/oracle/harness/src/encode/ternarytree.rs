//! The tree's tables as TOPP-HATT reads and writes them, built directly from a tree table of document 01.

use std::ops::Not;
use thiserror::Error;

/// One entry a node, breadth first: its label and its X, Y and Z child.
pub type TTFlatpack = Vec<(usize, (Option<usize>, Option<usize>, Option<usize>))>;

#[derive(Debug, Clone, Copy, PartialEq, Eq, Hash)]
pub enum Edge {
    X,
    Y,
    Z,
}

const EDGES: [Edge; 3] = [Edge::X, Edge::Y, Edge::Z];

/// Parity of the number of Y edges on the way from the root to a node.
#[derive(Debug, Clone, Copy, PartialEq, Eq)]
pub enum YParity {
    Odd,
    Even,
}

impl Not for YParity {
    type Output = Self;
    fn not(self) -> Self {
        match self {
            YParity::Even => YParity::Odd,
            YParity::Odd => YParity::Even,
        }
    }
}

/// A node's parent, with the edge that leads down from it.
#[derive(Debug, Clone, Copy, PartialEq, Eq)]
pub struct Parent {
    edge: Edge,
    index: u8,
}

impl Parent {
    pub fn node_index(&self) -> usize {
        self.index as usize
    }
}

/// A node, or a leaf by its mode: leaf 2k is `XLeaf(k)`, leaf 2k+1 is `YLeaf(k)`.
#[derive(Debug, Clone, Copy, PartialEq, Eq)]
pub enum Child {
    Node(u8),
    XLeaf(u8),
    YLeaf(u8),
}

impl Child {
    /// The child that a code of document 01 means, none for the absent one.
    fn from_code(modes: usize, code: u16) -> Option<Self> {
        let number = code as usize;
        if code == crate::ABSENT {
            return None;
        }
        assert!(number < 3 * modes, "{code} is no child code");
        if number < modes {
            return Some(Child::Node(number as u8));
        }
        let leaf = number - modes;
        let mode = (leaf / 2) as u8;
        Some(if leaf % 2 == 0 {
            Child::XLeaf(mode)
        } else {
            Child::YLeaf(mode)
        })
    }

    /// The code of document 01 for this child.
    fn to_code(self, modes: usize) -> u16 {
        let modes = modes as u16;
        match self {
            Child::Node(node) => node as u16,
            Child::XLeaf(mode) => modes + 2 * mode as u16,
            Child::YLeaf(mode) => modes + 2 * mode as u16 + 1,
        }
    }
}

#[derive(Debug)]
pub struct TernaryTree {
    pub(crate) parent_of: Vec<Option<Parent>>,
    pub(crate) x_child_of: Vec<Option<Child>>,
    pub(crate) y_child_of: Vec<Option<Child>>,
    pub(crate) z_child_of: Vec<Option<Child>>,
    pub(crate) y_parity_of: Vec<YParity>,
    pub n_nodes: usize,
}

/// HATT's error type names this one; nothing here builds it.
#[derive(Debug, Error)]
pub enum TernaryTreeError {}

impl TernaryTree {
    /// The tables of an accepted tree table: X, Y and Z of node 0 to n-1.
    pub fn from_codes(modes: usize, codes: &[u16]) -> Self {
        assert_eq!(
            codes.len(),
            3 * modes,
            "a tree table has three codes a node"
        );
        let child_of = |edge: usize| -> Vec<Option<Child>> {
            (0..modes)
                .map(|node| Child::from_code(modes, codes[3 * node + edge]))
                .collect()
        };
        let mut tree = Self {
            parent_of: vec![None; modes],
            x_child_of: child_of(0),
            y_child_of: child_of(1),
            z_child_of: child_of(2),
            y_parity_of: vec![YParity::Even; modes],
            n_nodes: modes,
        };
        tree.parent_of = tree.parents();
        tree.y_parity_of = (0..modes).map(|node| tree.y_parity(node)).collect();
        tree
    }

    /// The tree table of this tree.
    pub fn to_codes(&self) -> Vec<u16> {
        let code = |child: Option<Child>| child.map_or(crate::ABSENT, |c| c.to_code(self.n_nodes));
        (0..self.n_nodes)
            .flat_map(|node| self.children(node).map(code))
            .collect()
    }

    fn children(&self, node: usize) -> [Option<Child>; 3] {
        [
            self.x_child_of[node],
            self.y_child_of[node],
            self.z_child_of[node],
        ]
    }

    fn parents(&self) -> Vec<Option<Parent>> {
        let mut parent_of = vec![None; self.n_nodes];
        for node in 0..self.n_nodes {
            for (edge, child) in EDGES.into_iter().zip(self.children(node)) {
                if let Some(Child::Node(child)) = child {
                    let index = node as u8;
                    parent_of[child as usize] = Some(Parent { edge, index });
                }
            }
        }
        parent_of
    }

    fn y_parity(&self, node: usize) -> YParity {
        let mut parity = YParity::Even;
        let mut below = node;
        while let Some(parent) = self.parent_of[below] {
            if parent.edge == Edge::Y {
                parity = !parity;
            }
            below = parent.node_index();
        }
        parity
    }
}
