//! Which records of counters and marks have a reading.

use std::dialect::*;

use frame_counters::{PeerMarks, SendCounter};
use plc_base::{BadStore, Keeper, MemKeeper, Record, Short};
use std::test::Fail;
use store_tables::OpenFault;

// A record at the slot of the limit, and the next counter that it gives, if it has a reading.
const LIMITS: [(&[u8], Option<u32>); 5] = [
    (&[], None),
    (&[0, 0, 4], None),
    (&[0, 0, 4, 0], Some(1024)),
    (&[0xFF, 0xFF, 0xFF, 0xFF], Some(4_294_967_295)),
    (&[0, 0, 4, 0, 0], None),
];

#[test]
fn a_limit_has_four_octets() {
    std::test::check(|rt: HostRuntime| -> Result<(), Fail> {
    for (octets, want) in LIMITS {
        let mut keeper = MemKeeper::new(rt.alloc())?;
        assert!(rt; keeper.put(2, &Record::from_octets(octets)).is_ok());
        let next = match SendCounter::open(&keeper) {
            Ok(counter) => Some(4_294_967_295 - counter.left()),
            Err(bad) => {
                assert_eq!(rt; bad.slot, 2);
                None
            }
        };
        assert_eq!(rt; next, want, "{octets:?}");
    }
    Ok(())
})
}

// Records at the slots 0100 and 0101, and the slot of the one that has no reading, if one has none.
const PEERS: [(&[u8], &[u8], Option<u32>); 8] = [
    (&[0, 1, 0, 0, 0, 9], &[0, 2, 0, 0, 0, 9], None),
    (&[0xFF, 0xFD, 0, 0, 0, 9], &[0, 2, 0, 0, 0, 9], None),
    (&[0, 1, 0, 0, 0], &[0, 2, 0, 0, 0, 9], Some(0x0100)),
    (&[0, 1, 0, 0, 0, 9, 9], &[0, 2, 0, 0, 0, 9], Some(0x0100)),
    (&[0xFF, 0xFE, 0, 0, 0, 9], &[0, 2, 0, 0, 0, 9], Some(0x0100)),
    (&[0xFF, 0xFF, 0, 0, 0, 9], &[0, 2, 0, 0, 0, 9], Some(0x0100)),
    (&[0, 1, 0, 0, 0, 9], &[0, 1, 0, 0, 0, 8], Some(0x0101)),
    (&[0, 1, 0, 0, 0, 9], &[], Some(0x0101)),
];

#[test]
fn a_peer_has_an_address_and_a_mark() {
    std::test::check(|rt: HostRuntime| -> Result<(), Fail> {
    for (first, second, want) in PEERS {
        let mut keeper = MemKeeper::new(rt.alloc())?;
        assert!(rt; keeper.put(0x0100, &Record::from_octets(first)).is_ok());
        assert!(rt; keeper.put(0x0101, &Record::from_octets(second)).is_ok());
        let bad = match PeerMarks::open(rt.alloc(), &keeper) {
            Ok(marks) => {
                assert_eq!(rt; marks.senders().len(), 2);
                let second = Short::new(2).ok_or("no address")?;
                assert_eq!(rt; marks.mark(second), Some(9));
                None
            }
            Err(OpenFault::BadStore(bad)) => Some(bad.slot),
            Err(OpenFault::Memory) => return Err("no memory".into()),
        };
        assert_eq!(rt; bad, want, "{first:?} {second:?}");
    }
    Ok(())
})
}

// The slots of two records, and the first empty slot before one of them.
const LOST: [(u32, u32, u32); 4] = [
    (0x0100, 0x0102, 0x0101),
    (0x0101, 0x0102, 0x0100),
    (0x0101, 0x013F, 0x0100),
    (0x0100, 0x013F, 0x0101),
];

#[test]
fn a_lost_record_is_named() {
    std::test::check(|rt: HostRuntime| -> Result<(), Fail> {
    for (one, other, lost) in LOST {
        let mut keeper = MemKeeper::new(rt.alloc())?;
        let first = Record::from_octets(&[0, 1, 0, 0, 0, 9]);
        let second = Record::from_octets(&[0, 2, 0, 0, 0, 9]);
        assert!(rt; keeper.put(one, &first).is_ok());
        assert!(rt; keeper.put(other, &second).is_ok());
        let Err(fault) = PeerMarks::open(rt.alloc(), &keeper) else {
            return Err(Fail::from("opened"));
        };
        assert_eq!(rt; fault, OpenFault::BadStore(BadStore { slot: lost }));
    }
    Ok(())
})
}
