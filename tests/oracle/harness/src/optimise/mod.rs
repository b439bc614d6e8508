//! Where the algorithms stand, at the paths that their files have in ferrmion.

pub mod ternarytree;
