//! The rules of docs/01-scope.md ("01" below), and of the requests of docs/02 that landed, written a second time, in ordinary Rust with ordinary vectors.
//!
//! It judges what the Rust original has no counterpart for: the journal, the refusals, the tree
//! check, the trial count, the tree weight, the programs' text, their commands, Newick texts, Pauli strings and the best of all sequences of merges. It is clear rather than fast.

pub mod assign;
pub mod best;
pub mod commands;
pub mod journal;
pub mod letters;
pub mod merging;
pub mod newick;
pub mod refusal;
pub mod strings;
pub mod terms;
pub mod text;
pub mod tree;

pub use assign::assign;
pub use best::{best, best_into};
pub use commands::command;
pub use journal::{find_line, hatt, resume, Done};
pub use newick::{read_newick, write_newick};
pub use refusal::Refusal;
pub use strings::{strings, write_strings};
pub use text::program;
pub use tree::{check_tree, tree_weight};
