//! The crate `strsim`, whose distances take memory by Rattle's allocator there.

use rattle_std::alloc::{AllocError, Global};

pub fn osa_distance(_: Global, a: &str, b: &str) -> Result<usize, AllocError> {
    Ok(real::osa_distance(a, b))
}

pub fn levenshtein(_: Global, a: &str, b: &str) -> Result<usize, AllocError> {
    Ok(real::levenshtein(a, b))
}
