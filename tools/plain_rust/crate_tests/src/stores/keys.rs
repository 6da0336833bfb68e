//! Which records of a ring and of a key book have a reading, and that what holds a secret shows none of it.

extern crate alloc;

use std::dialect::*;

use alloc::format;
use eap_psk::{Agreed, Peer, Server};
use group_keys::{BookEntry, KeyBook, KeyRing};
use plc_base::{Eui, Grant, Keeper, Key, KeyIndex, MemKeeper, RandomOctets, Record, Short};
use std::test::Fail;
use store_tables::OpenFault;

// The record of a ring: joined, address, active index, and the flags and first octets of the two keys.
fn ring_octets(head: [u8; 4], first: [u8; 2], second: [u8; 2]) -> [u8; 38] {
    let mut octets = [0; 38];
    for place in 0..4 {
        octets[place] = head[place];
    }
    octets[4] = first[0];
    octets[5] = first[1];
    octets[21] = second[0];
    octets[22] = second[1];
    octets
}

// A ring's record by its fields, and whether it has a reading, and then its address and active index.
const RINGS: [([u8; 4], [u8; 2], [u8; 2], bool, Option<(u16, u8)>); 13] = [
    ([0, 0, 0, 0], [0, 0], [0, 0], true, None),
    ([1, 0, 1, 0], [1, 9], [0, 0], true, Some((1, 0))),
    ([1, 0xFF, 0xFD, 1], [0, 0], [1, 9], true, Some((0xFFFD, 1))),
    ([1, 0, 1, 1], [1, 9], [1, 9], true, Some((1, 1))),
    ([2, 0, 1, 0], [1, 9], [0, 0], false, None),
    ([1, 0xFF, 0xFE, 0], [1, 9], [0, 0], false, None),
    ([1, 0, 1, 1], [1, 9], [0, 0], false, None),
    ([1, 0, 1, 0], [0, 0], [1, 9], false, None),
    ([1, 0, 1, 2], [1, 9], [1, 9], false, None),
    ([1, 0, 1, 0], [2, 9], [0, 0], false, None),
    ([1, 0, 1, 0], [1, 9], [0, 9], false, None),
    ([0, 0, 1, 0], [0, 0], [0, 0], false, None),
    ([0, 0, 0, 0], [1, 9], [0, 0], false, None),
];

#[test]
fn a_ring_has_a_reading() {
    std::test::check(|rt: HostRuntime| -> Result<(), Fail> {
    for (head, first, second, reads, want) in RINGS {
        let mut keeper = MemKeeper::new(rt.alloc())?;
        let octets = ring_octets(head, first, second);
        assert!(rt; keeper.put(1, &Record::from_octets(&octets)).is_ok());
        match KeyRing::open(&keeper) {
            Ok(ring) => {
                assert!(rt; reads, "{head:?} {first:?} {second:?}");
                assert_eq!(rt;
                    ring.joined().map(|address| address.number()),
                    want.map(|w| w.0)
                );
                assert_eq!(rt;
                    ring.active().map(|index| index.number()),
                    want.map(|w| w.1)
                );
            }
            Err(bad) => {
                assert_eq!(rt; bad.slot, 1);
                assert!(rt; !reads, "{head:?} {first:?} {second:?}");
            }
        }
    }
    for len in [0usize, 37] {
        let mut keeper = MemKeeper::new(rt.alloc())?;
        assert!(rt; keeper.put(1, &Record::from_octets(&[0; 38][..len])).is_ok());
        assert!(rt; KeyRing::open(&keeper).is_err());
    }
    Ok(())
})
}

// The record of a book entry: the last octet of the EUI, the address, whether it is allowed, and the flags and first octets
// of the two keys.
fn entry_octets(eui: u8, address: u8, allowed: u8, first: [u8; 2], second: [u8; 2]) -> [u8; 61] {
    let mut octets = [0; 61];
    octets[7] = eui;
    octets[25] = address;
    octets[26] = allowed;
    octets[27] = first[0];
    octets[28] = first[1];
    octets[44] = second[0];
    octets[45] = second[1];
    octets
}

// The entries at the slots 1000 and 1001, and the slot of the one that has no reading, if one has none.
const ENTRIES: [(u8, u8, u8, [u8; 2], [u8; 2], Option<u32>); 9] = [
    (8, 2, 1, [1, 9], [1, 9], None),
    (8, 2, 0, [0, 0], [0, 0], None),
    (8, 1, 1, [0, 0], [0, 0], Some(0x1001)),
    (8, 3, 1, [0, 0], [0, 0], Some(0x1001)),
    (8, 2, 2, [0, 0], [0, 0], Some(0x1001)),
    (8, 2, 1, [2, 0], [0, 0], Some(0x1001)),
    (8, 2, 1, [0, 9], [0, 0], Some(0x1001)),
    (8, 2, 1, [0, 0], [0, 9], Some(0x1001)),
    (7, 2, 1, [0, 0], [0, 0], Some(0x1001)),
];

#[test]
fn an_entry_has_a_reading() {
    std::test::check(|rt: HostRuntime| -> Result<(), Fail> {
    for (eui, address, allowed, first, second, want) in ENTRIES {
        let mut keeper = MemKeeper::new(rt.alloc())?;
        let one = entry_octets(7, 1, 1, [0, 0], [0, 0]);
        let two = entry_octets(eui, address, allowed, first, second);
        assert!(rt; keeper.put(0x1000, &Record::from_octets(&one)).is_ok());
        assert!(rt; keeper.put(0x1001, &Record::from_octets(&two)).is_ok());
        match KeyBook::open(rt.alloc(), &keeper) {
            Ok(book) => {
                assert_eq!(rt; want, None);
                let eight = Eui([0, 0, 0, 0, 0, 0, 0, 8]);
                assert_eq!(rt; book.address(eight).map(|a| a.number()), Some(2));
                assert_eq!(rt; book.allowed(eight), allowed == 1);
                assert_eq!(rt;
                    book.issued(eight, KeyIndex::second()).is_some(),
                    second[0] == 1
                );
            }
            Err(OpenFault::BadStore(bad)) => assert_eq!(rt; Some(bad.slot), want),
            Err(OpenFault::Memory) => return Err("no memory".into()),
        }
    }
    let mut keeper = MemKeeper::new(rt.alloc())?;
    assert!(rt; keeper.put(0x1000, &Record::from_octets(&[0; 60])).is_ok());
    assert!(rt; KeyBook::open(rt.alloc(), &keeper).is_err());
    Ok(())
})
}

// An octet of a secret, which no other number here is written as.
const SECRET: u8 = 0xA7;

// The record of a ring with two keys of such octets.
fn secret_ring() -> [u8; 38] {
    let mut octets = ring_octets([1, 0, 1, 0], [1, SECRET], [1, SECRET]);
    for place in (6..21).chain(23..38) {
        octets[place] = SECRET;
    }
    octets
}

// What a derived `Debug` writes has no clause.
#[test]
fn debug_shows_no_secret() {
    std::test::check(|rt: HostRuntime| -> Result<(), Fail> {
    let mut keeper = MemKeeper::new(rt.alloc())?;
    assert!(rt; keeper.put(1, &Record::from_octets(&secret_ring())).is_ok());
    let Ok(ring) = KeyRing::open(&keeper) else {
        return Err("the ring has a reading".into());
    };
    let Some(address) = Short::new(1) else {
        return Err("1 is an address".into());
    };
    let (key, random, eui) = (Key([SECRET; 16]), RandomOctets([SECRET; 16]), Eui([1; 8]));
    let grant = Grant { address, active: KeyIndex::first(), keys: [Some(key), Some(key)] };
    let entry = BookEntry { eui, psk: key, allowed: true, issued0: Some(key), issued1: Some(key) };
    let agreed = Agreed { rand_s: random, rand_p: random };
    let peer = Peer { eui, id_s: eui, rand_s: random, rand_p: random };
    let server = Server { eui, id_s: eui, rand_s: random, rand_p: Some(random) };
    for (plain, spread) in [
        (format!("{ring:?}"), format!("{ring:#x?}")),
        (format!("{grant:?}"), format!("{grant:#x?}")),
        (format!("{entry:?}"), format!("{entry:#x?}")),
        (format!("{agreed:?}"), format!("{agreed:#x?}")),
        (format!("{peer:?}"), format!("{peer:#x?}")),
        (format!("{server:?}"), format!("{server:#x?}")),
    ] {
        assert!(rt; plain.contains("(..)") && !plain.contains("167"), "{plain}");
        assert!(rt; spread.contains("(..)") && !spread.contains("a7"), "{spread}");
    }
    Ok(())
})
}
