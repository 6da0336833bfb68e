//! Tests of the crates in plain Rust: tables of values from outside, power that fails at each operation, and the rows that no script shows. None of it is
//! proved. They stand apart, since the prover proves each test function too, setup and all, which would cost more than the crates that are tested.
#![cfg(test)]
#![no_std]
#![allow(unstable_name_collisions)]
#[macro_use]
extern crate rattle_std as std;

mod air;
mod ciphers;
mod descriptions;
mod flash;
mod formats;
mod nodes;
mod records;
mod stores;
