//! A node of a field network on the power line: a meter, and its coordinator. Each module was a crate of the repository, and its first page says
//! what it does and promises.
//!
//! The functions are proved in Rattle; here is their source as plain Rust, which is tested. A contract stands under its function, and a public call of
//! `plc_station`, `meter_node` and `coordinator` that its contract does not allow stops (README.md).
//!
//! # Features
//!
//! - `meter`, the default: `meter_node::Meter`, which opens over a `plc_base::Keeper`; then `receive` for each frame, `send` of its station, `tick`.
//! - `coordinator`: `coordinator::Coordinator`, the same with a book of 999 meters.
//! - `flash`: `flash_keeper::FlashKeeper`, the keeper of a node over two banks of raw NOR flash. Write a `FlashBank` for the part, call `format` once in the
//!   factory and `open` at each start. `examples/flash` has a driver for SPI NOR to be copied, and says what to do about each fault and after a failed write.
//! - `further-reach`: acknowledged route replies, broadcasts, beacons by which a meter finds an agent, and path requests. `examples/further_reach/reach.rs`,
//!   to be copied, is a call of each beside a node over any keeper; it takes each frame in the node's place.
//! - `frames`: `frames_c`, frames alone, over slices.
//! - `std`: for tests on a host.
#![no_std]

extern crate alloc as heap;
#[cfg(any(test, feature = "std"))]
extern crate std as host;

#[macro_use]
pub mod rattle_std;
