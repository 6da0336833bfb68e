use std::dialect::*;

use pcapng::{Direction, Options, Packet, append_interface, append_packet, append_section};
use std::alloc::{AllocError, Global};
use std::test::Fail;

// A section, an interface and a packet, as Python's struct module packs them by the tables of the format.
const SECTION: &str =
    "0a0d0d0a3c0000004d3c2b1a01000000ffffffffffffffff01000500612072756e000000040009006c696e655f76696577000000000000003c000000";

const INTERFACE: &str =
    "0100000038000000e600000000000000020006006e6f646520330000030007006d6574657220330009000100090000000000000038000000";

const PACKET: &str =
    "060000003c0000000200000001000000590d062a030000000300000041980100010007006576656e742039000200040002000000000000003c000000";

// Whether options are as short as those here: where they are not, nothing is written, and the test fails.
fn are_short(options: &Options) -> bool
    // ensures { IsTrue result → length options.now ≤ 100 }
{
    options.octets().len() <= 100
}

fn section(alloc: Global) -> Result<Vec<u8>, AllocError> {
    let (mut out, mut options) = (Vec::new(alloc), Options::new(alloc));
    options.comment("a run")?;
    options.application("line_view")?;
    if are_short(&options) {
        append_section(&mut out, &options)?;
    }
    Ok(out)
}

fn interface(alloc: Global) -> Result<Vec<u8>, AllocError> {
    let (mut out, mut options) = (Vec::new(alloc), Options::new(alloc));
    options.name("node 3")?;
    options.description("meter 3")?;
    options.in_nanoseconds()?;
    if are_short(&options) {
        append_interface(&mut out, 230, &options)?;
    }
    Ok(out)
}

fn packet(alloc: Global) -> Result<Vec<u8>, AllocError> {
    let (mut out, mut options) = (Vec::new(alloc), Options::new(alloc));
    options.comment("another event")?;
    options.clear();
    options.comment("event 9")?;
    options.direction(Direction::Outbound)?;
    let packet = Packet {
        interface: 2,
        time: 5_000_007_001,
        octets: &[0x41, 0x98, 0x01],
    };
    if are_short(&options) {
        append_packet(&mut out, &packet, &options)?;
    }
    Ok(out)
}

#[test]
fn is_the_format() {
    std::test::check(|rt: HostRuntime| -> Result<(), Fail> {
    let alloc = rt.alloc();
    for (written, text) in [
        (section(alloc)?, SECTION),
        (interface(alloc)?, INTERFACE),
        (packet(alloc)?, PACKET),
    ] {
        let octets = hex::decode(alloc, text)?;
        assert_eq!(rt; written.as_slice(), octets.as_slice());
    }
    Ok(())
})
}
