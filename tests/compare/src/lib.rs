//! What the comparisons share: inputs made from a seed, the proved library's calls, marks for what is lent, and the tally of what was compared.

pub mod cases;
mod kinds;
mod marks;
mod numbers;
#[cfg(feature = "proved")]
pub mod proved;

pub use kinds::Kinds;
pub use marks::{BYTE_MARK, MARK};
pub use numbers::{four_numbers, numbers, six_numbers};
