//! Where the algorithms look for the tree.

pub mod ternarytree;
