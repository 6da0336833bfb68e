//! What the tests of the keepers share.
#![allow(dead_code)]
pub mod chance;
#[cfg(feature = "sqlite")]
pub mod disk;
pub mod judge;
