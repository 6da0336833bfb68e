use std::dialect::*;

use mesh_header::UnitFaultKind::{
    Address, AddressKind, DataSize, Dispatch, Empty, HopForm, PieceForm, Short as Ended, Size,
};
use mesh_header::{UnitFault, UnitFaultKind, read_unit};
use plc_base::FrameBuf;
use std::process::Abort;
use std::test::Fail;

// The fault of octets, None where they are a unit.
fn fault_of(octets: &[u8]) -> Option<UnitFault>
    // requires { length octets.now ≤ 400 }
{
    match read_unit(octets) {
        Ok(_) => None,
        Err(fault) => Some(fault),
    }
}

fn refuses(rt: &impl Abort, octets: &[u8], kind: UnitFaultKind, place: u16) {
    assert!(rt; octets.len() <= 400);
    assert_eq!(rt;
        fault_of(octets),
        Some(UnitFault { kind, place }),
        "{octets:?}"
    );
}

// The mesh header from node 1 to node 2 with this many hops, and what follows it.
fn behind_a_header(hops: u8, load: &[u8]) -> FrameBuf {
    let mut octets = FrameBuf::new();
    if hops < 15 {
        octets.push(0xB0 + hops);
    } else {
        octets.push(0xBF);
        octets.push(hops);
    }
    octets.append(&[0, 1, 0, 2]);
    if load.len() <= 394 {
        octets.append(load);
    }
    octets
}

#[test]
fn the_first_fault_and_its_place() {
    std::test::check(|rt: HostRuntime| -> Result<(), Fail> {
    for (text, kind, place) in [
        ("", Empty, 0),
        ("00", Dispatch, 0),
        ("41aa", Dispatch, 0),
        ("c008000141aa", Dispatch, 0),
        ("ff", Dispatch, 0),
        ("be0001000242aa", Dispatch, 5),
        ("bf0f00010002c8aa", Dispatch, 6),
        ("be00010002400105", Dispatch, 6),
        ("be00010002c008000140aa", Dispatch, 9),
        ("4000", Dispatch, 1),
        ("4006aa", Dispatch, 1),
        ("80", AddressKind, 0),
        ("ae0001000241aa", AddressKind, 0),
        ("9fffff", AddressKind, 0),
        ("bf0e0001000241aa", HopForm, 1),
        ("bf00", HopForm, 1),
        ("bf", Ended, 1),
        ("be", Ended, 1),
        ("be000100", Ended, 4),
        ("be00010002", Ended, 5),
        ("bf0f00010002", Ended, 6),
        ("be00010002c0", Ended, 6),
        ("be00010002c00800", Ended, 8),
        ("be00010002c0080001", Ended, 9),
        ("be00010002e0080001", Ended, 9),
        ("be0001000240", Ended, 6),
        ("40", Ended, 1),
        ("be00010002c000", Size, 5),
        ("be00010002c501000141aa", Size, 5),
        ("bf1000010002e0000001", Size, 6),
        ("be00010002e7ff", Size, 5),
        ("be00010002c008000141", PieceForm, 10),
        ("be00010002c001000141aabb", PieceForm, 10),
        ("be00010002c010000141aabbcc", PieceForm, 10),
        ("be00010002e0080001010102030405060708", PieceForm, 10),
        ("be00010002e010000100", PieceForm, 10),
        ("be0001000241", DataSize, 6),
        ("bf0f0001000241", DataSize, 7),
        ("befffe000241aa", Address, 1),
        ("be0001ffff41aa", Address, 3),
        ("bfff0001fffe41aa", Address, 4),
    ] {
        refuses(&rt, hex::decode(rt.alloc(), text)?.as_slice(), kind, place);
    }
    Ok(())
})
}

#[test]
fn sizes_at_their_limits() {
    std::test::check(|rt: HostRuntime| {
    for (size, kind) in [
        (0, Some(DataSize)),
        (1, None),
        (375, None),
        (376, Some(DataSize)),
        (380, Some(DataSize)),
    ] {
        let mut load = FrameBuf::from_octets(&[0x41]);
        for _ in 0..size {
            if load.len() < 390 {
                load.push(7);
            }
        }
        let octets = behind_a_header(14, load.octets());
        assert_eq!(rt;
            fault_of(octets.octets()),
            kind.map(|kind| UnitFault { kind, place: 6 }),
            "{size}"
        );
    }
    for (size, kind) in [
        (0u16, Some(Size)),
        (1, None),
        (375, None),
        (376, None),
        (1280, None),
        (1281, Some(Size)),
    ] {
        let [high, low] = size.to_be_bytes();
        if high >= 8 {
            continue;
        }
        let octets = behind_a_header(255, &[0xC0 + high, low, 0, 9, 0x41, 1, 2, 3, 4, 5, 6, 7, 8]);
        let short = behind_a_header(255, &[0xC0 + high, low, 0, 9, 0x41, 1]);
        let read = if size == 1 { short } else { octets };
        assert_eq!(rt;
            fault_of(read.octets()),
            kind.map(|kind| UnitFault { kind, place: 6 }),
            "{size}"
        );
    }
})
}
