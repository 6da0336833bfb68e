use std::dialect::*;

use path_requests::PathMessage::{Ask, Tell};
use path_requests::{Walk, read_path, write_path};
use plc_base::{FrameBuf, Short};
use std::test::Fail;

fn short(number: u16) -> Result<Short, Fail> {
    Ok(Short::new(number).ok_or("no address")?)
}

// The walk of these addresses: this many, from the first on, each one more than the one before.
fn walk(first: u16, count: u16) -> Result<Walk, Fail> {
    let mut walk = Walk::new();
    for k in 0..count {
        if walk.len() < 16 {
            walk.push(short(first.wrapping_add(k))?);
        }
    }
    Ok(walk)
}

// What the octets spell, spelled again.
fn again(octets: &[u8]) -> Result<FrameBuf, Fail> {
    let message = read_path(octets).ok_or("no path message")?;
    let mut out = FrameBuf::new();
    write_path(&message, &mut out);
    Ok(out)
}

#[test]
fn has_one_spelling() {
    std::test::check(|rt: HostRuntime| -> Result<(), Fail> {
    let ask = Ask {
        target: short(2)?,
        walk: walk(0, 1)?,
    };
    let tell = Tell { walk: walk(0, 3)? };
    for (text, message) in [("010002010000", ask), ("0203000000010002", tell)] {
        let octets = hex::decode(rt.alloc(), text)?;
        assert_eq!(rt; read_path(octets.as_slice()), Some(message));
    }
    for text in [
        "010002010000",
        "01fffd020000fffc",
        "01000f0f0000000100020003000400050006000700080009000a000b000c000d000e",
        "020200000001",
        "02100000000100020003000400050006000700080009000a000b000c000d000e000f",
    ] {
        let octets = hex::decode(rt.alloc(), text)?;
        assert_eq!(rt; again(octets.as_slice())?.octets(), octets.as_slice());
    }
    Ok(())
})
}

#[test]
fn is_no_path_message() {
    std::test::check(|rt: HostRuntime| -> Result<(), Fail> {
    for text in [
        "",
        "00",
        "01",
        "010002",
        "01000200",
        "01000201",
        "0100020100",
        "01000201000000",
        "010002020000",
        "010002010002",
        "010002020000000200",
        "0100020200010001",
        "01fffe010000",
        "01000201ffff",
        "010010100000000100020003000400050006000700080009000a000b000c000d000e000f",
        "02",
        "0200",
        "02010000",
        "0202000000",
        "02020000000100",
        "020200010001",
        "02020000fffe",
        "0203000000010000",
        "02110000000100020003000400050006000700080009000a000b000c000d000e000f0010",
        "030002010000",
        "ff",
    ] {
        let octets = hex::decode(rt.alloc(), text)?;
        assert_eq!(rt; read_path(octets.as_slice()), None, "{text}");
    }
    Ok(())
})
}
