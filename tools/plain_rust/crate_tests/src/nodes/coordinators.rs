//! What a coordinator begins with over a store that has records, and over one whose first put fails.

use std::dialect::*;

use coordinator::Coordinator;
use plc_base::{BadStore, Eui, Keeper, Key, KeyIndex, MemKeeper, Record, Short};
use plc_station::OpenFault;
use std::test::Fail;

const KEY: Key = Key([0, 1, 2, 3, 4, 5, 6, 7, 8, 9, 10, 11, 12, 13, 14, 15]);

const OTHER: Key = Key([0x20; 16]);

const OWN: Eui = Eui([0xAA, 0xBB, 0xCC, 0xDD, 0xEE, 0xFF, 0, 0x11]);

// The record of a ring with the address 0007, active at index 1.
fn seventh() -> [u8; 38] {
    let mut octets = [0; 38];
    octets[0] = 1;
    octets[2] = 7;
    octets[3] = 1;
    octets[21] = 1;
    octets
}

#[test]
fn another_address_stays() {
    std::test::check(|rt: HostRuntime| -> Result<(), Fail> {
    let mut keeper = MemKeeper::new(rt.alloc())?;
    assert!(rt; keeper.put(1, &Record::from_octets(&seventh())).is_ok());
    let Ok(mut coordinator) = Coordinator::open(rt.alloc(), keeper, OWN, &KEY) else {
        return Err(Fail::from("not opened"));
    };
    assert_eq!(rt; coordinator.address(), Short::new(7));
    assert_eq!(rt; coordinator.station().ring().key(KeyIndex::first()), None);
    Ok(())
})
}

// Two slots whose records have no reading, or come after an empty slot of their table, and the slot that is named.
const BAD: [(u32, u32, u32); 7] = [
    (0x1000, 0x1001, 0x1000),
    (0x1000, 0x0100, 0x0100),
    (0x0200, 0x0100, 0x0200),
    (2, 1, 1),
    (0x1002, 0x1001, 0x1000),
    (0x0101, 0x0202, 0x0200),
    (0x1001, 0x0101, 0x0100),
];

#[test]
fn the_first_bad_record_is_named() {
    std::test::check(|rt: HostRuntime| -> Result<(), Fail> {
    for (one, other, want) in BAD {
        let mut keeper = MemKeeper::new(rt.alloc())?;
        assert!(rt; keeper.put(one, &Record::from_octets(&[9])).is_ok());
        assert!(rt; keeper.put(other, &Record::from_octets(&[9])).is_ok());
        let Err((fault, _)) = Coordinator::open(rt.alloc(), keeper, OWN, &KEY) else {
            return Err(Fail::from("opened"));
        };
        assert_eq!(rt; fault, OpenFault::BadStore(BadStore { slot: want }));
    }
    Ok(())
})
}

#[test]
fn a_ring_that_is_not_stored() {
    std::test::check(|rt: HostRuntime| -> Result<(), Fail> {
    for keep_new in [false, true] {
        let mut keeper = MemKeeper::new(rt.alloc())?;
        keeper.cut(1, keep_new);
        let Err((fault, left)) = Coordinator::open(rt.alloc(), keeper, OWN, &KEY) else {
            return Err(Fail::from("opened"));
        };
        assert_eq!(rt; fault, OpenFault::Store);
        assert_eq!(rt; left.get(1).is_some(), keep_new);
        let Ok(again) = Coordinator::open(rt.alloc(), left, OWN, &OTHER) else {
            return Err(Fail::from("not opened"));
        };
        assert_eq!(rt; again.address(), Some(Short::default()));
    }
    Ok(())
})
}
