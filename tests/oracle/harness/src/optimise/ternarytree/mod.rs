//! The two algorithms; the build copies their files here.

// What only ferrmion's other callers use is unused here.
#[allow(dead_code, unused_imports)]
pub mod hatt;
#[allow(dead_code)]
pub mod topphatt;
