//! Which records of ranks, floors and own numbers have a reading.

use std::dialect::*;

use plc_base::{BadStore, Keeper, MemKeeper, Record, Short};
use routing_set::{OwnNumber, RoutingSet};
use std::alloc::Global;
use std::process::Abort;
use std::test::Fail;
use store_tables::OpenFault;

// A record at the slot of the own number's limit, and the last number that it gives, if it has a reading.
const LIMITS: [(&[u8], Option<u16>); 5] = [
    (&[], None),
    (&[7], None),
    (&[0, 0], None),
    (&[0, 33], Some(33)),
    (&[0, 33, 0], None),
];

#[test]
fn a_limit_has_two_octets_and_is_not_0() {
    std::test::check(|rt: HostRuntime| -> Result<(), Fail> {
    for (octets, want) in LIMITS {
        let mut keeper = MemKeeper::new(rt.alloc())?;
        assert!(rt; keeper.put(3, &Record::from_octets(octets)).is_ok());
        let last = match OwnNumber::open(&keeper) {
            Ok(number) => Some(number.last()),
            Err(bad) => {
                assert_eq!(rt; bad.slot, 3);
                None
            }
        };
        assert_eq!(rt; last, want, "{octets:?}");
    }
    Ok(())
})
}

// Records at the slots 0200 and 0201, and the slot of the one that has no reading, if one has none.
const RANKS: [(&[u8], &[u8], Option<u32>); 7] = [
    (&[0, 1, 0, 9, 0, 4], &[0, 2, 0, 9, 0, 4], None),
    (&[0xFF, 0xFD, 0, 9, 0, 4], &[0, 2, 0, 9, 0, 0], None),
    (&[0, 1, 0, 9, 0], &[0, 2, 0, 9, 0, 4], Some(0x0200)),
    (&[0xFF, 0xFE, 0, 9, 0, 4], &[0, 2, 0, 9, 0, 4], Some(0x0200)),
    (&[0, 1, 0, 0, 0, 4], &[0, 2, 0, 9, 0, 4], Some(0x0200)),
    (&[0, 1, 0, 9, 0, 4], &[0, 1, 0, 8, 0, 4], Some(0x0201)),
    (&[0, 1, 0, 9, 0, 4], &[0, 2, 0, 9, 0, 4, 0], Some(0x0201)),
];

// The slot of the record that has no reading.
fn bad_slot(rt: &impl Abort, alloc: Global, keeper: &MemKeeper) -> Result<Option<u32>, Fail> {
    match RoutingSet::open(alloc, keeper) {
        Ok(routes) => {
            let two = Short::new(2).ok_or("no address")?;
            assert_eq!(rt; routes.kept().len(), 2);
            assert_eq!(rt; routes.held(two).number, 9);
            assert_eq!(rt; routes.route(two), None);
            Ok(None)
        }
        Err(OpenFault::BadStore(bad)) => Ok(Some(bad.slot)),
        Err(OpenFault::Memory) => Err("no memory".into()),
    }
}

#[test]
fn a_rank_has_an_address_and_a_number() {
    std::test::check(|rt: HostRuntime| -> Result<(), Fail> {
    for (first, second, want) in RANKS {
        let mut keeper = MemKeeper::new(rt.alloc())?;
        assert!(rt; keeper.put(0x0200, &Record::from_octets(first)).is_ok());
        assert!(rt; keeper.put(0x0201, &Record::from_octets(second)).is_ok());
        assert_eq!(rt;
            bad_slot(&rt, rt.alloc(), &keeper)?,
            want,
            "{first:?} {second:?}"
        );
    }
    Ok(())
})
}

#[test]
fn floors_have_thirty_two_octets() {
    std::test::check(|rt: HostRuntime| -> Result<(), Fail> {
    let mut octets = [0u8; 32];
    octets[3] = 5;
    octets[30] = 1;
    let mut keeper = MemKeeper::new(rt.alloc())?;
    assert!(rt; keeper.put(5, &Record::from_octets(&octets)).is_ok());
    let routes = RoutingSet::open(rt.alloc(), &keeper)?;
    assert_eq!(rt; routes.floor(0), 0);
    assert_eq!(rt; routes.floor(1), 5);
    assert_eq!(rt; routes.floor(15), 256);
    let thirty_one = Short::new(31).ok_or("no address")?;
    assert_eq!(rt; routes.held(thirty_one).number, 256);
    assert!(rt; keeper.put(5, &Record::from_octets(&octets[1..])).is_ok());
    match RoutingSet::open(rt.alloc(), &keeper) {
        Ok(_) => assert!(rt; false),
        Err(fault) => assert_eq!(rt; fault, OpenFault::BadStore(BadStore { slot: 5 })),
    }
    Ok(())
})
}
