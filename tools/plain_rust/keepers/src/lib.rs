//! Keepers that are ready, and tests of keepers over losses of power (`tests/`). None of it is proved.
#![no_std]

#[cfg(feature = "sqlite")]
extern crate std;

pub mod fram;
#[cfg(feature = "sqlite")]
pub mod sqlite;
