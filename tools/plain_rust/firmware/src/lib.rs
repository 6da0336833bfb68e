//! A meter as firmware has it: the node, the buffers that it is lent, a modem and a flash. Replace `Flash`, and write a `Modem` for your board.
#![no_std]

mod driver;
mod flash;

pub use driver::{Driver, Modem, Trouble};
pub use flash::Flash;

/// A driver may be made in one task and moved to another (`docs/A-METER-IN-YOUR-DEVICE.md`, "One task").
const fn may_be_moved<T: Send>() {}
const _: () = may_be_moved::<meter_node::Meter<Flash>>();
const _: () = may_be_moved::<coordinator::Coordinator<Flash>>();
