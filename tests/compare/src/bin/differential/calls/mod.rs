//! The plain program's calls with marked slices: what a call must leave alone is looked over after every one, and every call is made of the proved library too, with the same slices, and of its calls for C, with their bytes.

mod assign;
mod best;
mod from_c;
mod resume;

pub use assign::{assign, assign_by, assign_in};
pub use best::best_in;
pub use resume::{accepted, resume, resume_by, resume_in, Finished, Rooms};

/// How far each lent slice goes beyond its room.
const BEYOND: usize = 3;

/// The numbers of the rules.
pub const PUBLISHED: usize = 0;
pub const KEEP: usize = 1;
