//! Test inputs in the domain of document 01, made from a seed: terms of every shape and trees of every growth.

#[cfg(test)]
mod accepted;
mod random;
mod terms;
mod trees;

pub use random::Random;
pub use terms::{any_terms, flat, terms, Shape, SHAPES};
pub use trees::{any_tree, permute_labels, tree, tree_of_rows, Growth, ABSENT, GROWTHS};
pub use trees::{change_length, exchange_codes, replace_code};
