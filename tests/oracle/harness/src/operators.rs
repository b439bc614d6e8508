//! The terms as TOPP-HATT holds them: lists of indices, and stand-ins for the two forms that this port leaves behind.

use crate::optimise::ternarytree::hatt::MAX_MAJORANAS;
use tinyvec::ArrayVec;

type Terms = [ArrayVec<[u16; MAX_MAJORANAS]>];

/// List terms, each with its indices ascending.
pub struct MajoranaSparse {
    pub indices: Vec<ArrayVec<[u16; MAX_MAJORANAS]>>,
}

/// Stands in for a form of terms that is never built here.
pub struct MajoranaDenseTranspose {
    pub columns: Vec<Vec<u64>>,
    pub n_words: usize,
    pub n_terms: usize,
}

impl MajoranaDenseTranspose {
    pub fn from_arrayvecs(_terms: &Terms, _n_modes: usize) -> Self {
        unreachable!("the oracle weighs list terms only")
    }
}

/// Stands in for a form of terms that is never built here.
pub struct MajoranaSparseTranspose {
    pub lists: Vec<Vec<u32>>,
    pub n_terms: usize,
}

impl MajoranaSparseTranspose {
    pub fn from_arrayvecs(_terms: &Terms, _n_modes: usize) -> Self {
        unreachable!("the oracle weighs list terms only")
    }
}
