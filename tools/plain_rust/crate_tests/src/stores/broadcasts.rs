//! Which records of broadcasts have a reading.

use std::dialect::*;

use broadcast_log::BroadcastLog;
use plc_base::{BadStore, Keeper, MemKeeper, Record, Short};
use std::test::Fail;
use store_tables::OpenFault;

// A record at the slot of the limit, and the next number that it gives, if it has a reading.
const LIMITS: [(&[u8], Option<u32>); 5] = [
    (&[], None),
    (&[0, 0, 0], None),
    (&[0, 0, 0, 32], Some(32)),
    (&[0xFF, 0xFF, 0xFF, 0xFF], Some(4_294_967_295)),
    (&[0, 0, 0, 32, 0], None),
];

#[test]
fn a_limit_has_four_octets() {
    std::test::check(|rt: HostRuntime| -> Result<(), Fail> {
    for (octets, want) in LIMITS {
        let mut keeper = MemKeeper::new(rt.alloc())?;
        assert!(rt; keeper.put(6, &Record::from_octets(octets)).is_ok());
        let next = match BroadcastLog::open(rt.alloc(), &keeper) {
            Ok(log) => Some(4_294_967_295 - log.number_left()),
            Err(fault) => {
                assert_eq!(rt; fault, OpenFault::BadStore(BadStore { slot: 6 }));
                None
            }
        };
        assert_eq!(rt; next, want, "{octets:?}");
    }
    Ok(())
})
}

// Records at the slots 0300 and 0301, and the slot of the one that has no reading, if one has none.
const MARKS: [(&[u8], &[u8], Option<u32>); 7] = [
    (&[0, 1, 0, 0, 0, 9], &[0, 2, 0, 0, 0, 9], None),
    (&[0xFF, 0xFD, 0, 0, 0, 9], &[0, 2, 0, 0, 0, 9], None),
    (&[0, 1, 0, 0, 0], &[0, 2, 0, 0, 0, 9], Some(0x0300)),
    (&[0, 1, 0, 0, 0, 9, 9], &[0, 2, 0, 0, 0, 9], Some(0x0300)),
    (&[0xFF, 0xFE, 0, 0, 0, 9], &[0, 2, 0, 0, 0, 9], Some(0x0300)),
    (&[0, 1, 0, 0, 0, 9], &[0, 1, 0, 0, 0, 8], Some(0x0301)),
    (&[0, 1, 0, 0, 0, 9], &[], Some(0x0301)),
];

#[test]
fn an_origin_has_an_address_and_a_mark() {
    std::test::check(|rt: HostRuntime| -> Result<(), Fail> {
    for (first, second, want) in MARKS {
        let mut keeper = MemKeeper::new(rt.alloc())?;
        assert!(rt; keeper.put(0x0300, &Record::from_octets(first)).is_ok());
        assert!(rt; keeper.put(0x0301, &Record::from_octets(second)).is_ok());
        let bad = match BroadcastLog::open(rt.alloc(), &keeper) {
            Ok(log) => {
                assert_eq!(rt; log.origins().len(), 2);
                let second = Short::new(2).ok_or("no address")?;
                assert_eq!(rt; log.mark(second), Some(9));
                None
            }
            Err(OpenFault::BadStore(bad)) => Some(bad.slot),
            Err(OpenFault::Memory) => return Err("no memory".into()),
        };
        assert_eq!(rt; bad, want, "{first:?} {second:?}");
    }
    Ok(())
})
}
