//! The reader of units, over the payload of a full frame: 381 octets, which are a mesh header and a whole datagram of 375.
use crate::Done;
use mesh_header::{Unit, read_unit};
use rattle_std::process::HostRuntime;

// A call of its own, so that the whole unit has to be made.
#[inline(never)]
fn read(payload: &[u8]) -> Option<Unit<'_>> {
    read_unit(payload).ok()
}

/// The octets of `count` datagrams, each read out of a unit of its own that differs from the one before.
fn read_units(count: u32) -> u64 {
    let mut payload = [0; 381];
    payload[..6].copy_from_slice(&[0xBE, 0, 1, 0, 2, 0x41]);
    let mut sum: u64 = 0;
    for _ in 0..count {
        if let Some(Unit::Whole { octets, .. }) = read(&payload) {
            sum += octets.octets().len() as u64;
        }
        payload[6] = (sum % 256) as u8;
    }
    sum
}

/// Reads `count` units, and prints how many octets their datagrams had together.
pub fn run(_: &HostRuntime, count: u32) -> Done {
    println!("read {}", read_units(count));
    Ok(())
}
