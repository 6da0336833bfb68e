//! Conversions between numbers that Rattle has by these names, and Rust by `as`.
pub use core::num::*;

/// The float that is nearest to a number.
pub const fn nearest_u64_to_f64(number: u64) -> f64 {
    number as f64
}

/// A float without its fraction: 0 below 0 and of what is no number, and the largest number above it.
pub const fn saturating_f64_to_u64(number: f64) -> u64 {
    number as u64
}
