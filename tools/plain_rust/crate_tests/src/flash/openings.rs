//! What an opening programs and erases.

use std::dialect::*;

use super::power_cuts::HOW;
use flash_keeper::{Cut, FlashKeeper, ModelFlash};
use plc_base::{Keeper, Record};
use std::alloc::{AllocError, Global};
use std::test::Fail;

/// Thirty cells a bank.
const WORDS: usize = 4 + 12 * 30;

type Store = FlashKeeper<ModelFlash>;

// A store that was copied once to the other bank.
fn copied(alloc: Global) -> Result<Option<Store>, AllocError> {
    let first = ModelFlash::new(alloc, WORDS, 0x9E37_79B9)?;
    let second = ModelFlash::new(alloc, WORDS, 0x7F4A_7C15)?;
    let Ok(mut keeper) = FlashKeeper::format(first, second, 4, 1) else {
        return Ok(None);
    };
    for k in 0..31 {
        let Ok(()) = keeper.put(1, &Record::from_octets(&[k; 20])) else {
            return Ok(None);
        };
    }
    Ok(Some(keeper))
}

// The store opened once more, with how many programs and erases had been begun before.
fn opened(keeper: Store) -> Option<(Store, u32, u32)> {
    let (first, second) = keeper.into_banks();
    let programs = first.programs().saturating_add(second.programs());
    let erases = first.erases().saturating_add(second.erases());
    let Ok(keeper) = FlashKeeper::open(first, second) else {
        return None;
    };
    Some((keeper, programs, erases))
}

#[test]
fn only_the_first_opening_programs_heads() {
    std::test::check(|rt: HostRuntime| -> Result<(), Fail> {
    let Some(keeper) = copied(rt.alloc())? else {
        return Err(Fail::from("not put"));
    };
    let Some((mut keeper, mut programs, erases)) = opened(keeper) else {
        return Err(Fail::from("not opened"));
    };
    // three programs of heads, the mark of the last cell, and the cell after it, which is closed
    let mut more = 5;
    for _ in 0..20 {
        let Some(next) = opened(keeper) else {
            return Err(Fail::from("not opened again"));
        };
        assert_eq!(rt; (next.1, next.2), (programs.saturating_add(more), erases));
        keeper = next.0;
        programs = next.1;
        more = 2;
    }
    Ok(())
})
}

// A store with one record, and a put after it in which power failed at an operation of its bank.
fn cut_short(alloc: Global, nth: u32, how: Cut) -> Result<Option<Store>, AllocError> {
    let mut first = ModelFlash::new(alloc, WORDS, 0x9E37_79B9 + u64::from(nth))?;
    let second = ModelFlash::new(alloc, WORDS, 0x7F4A_7C15)?;
    first.cut(nth, how);
    let Ok(mut keeper) = FlashKeeper::format(first, second, 4, 1) else {
        return Ok(None);
    };
    let Ok(()) = keeper.put(1, &Record::from_octets(&[1; 20])) else {
        return Ok(None);
    };
    let Ok(()) = keeper.put(1, &Record::from_octets(&[2; 20])) else {
        return Ok(Some(keeper));
    };
    Ok(None)
}

#[test]
fn a_put_cut_short_costs_no_erase() {
    std::test::check(|rt: HostRuntime| -> Result<(), Fail> {
    for how in HOW {
        // six operations of the format, six of the first put, then four words of the record, its fence and its mark
        for nth in 13..19 {
            let Some(keeper) = cut_short(rt.alloc(), nth, how)? else {
                return Err(Fail::from("not cut short"));
            };
            let Some((keeper, _, before)) = opened(keeper) else {
                return Err(Fail::from("not opened"));
            };
            let Some((_, _, after)) = opened(keeper) else {
                return Err(Fail::from("not opened again"));
            };
            assert_eq!(rt; before, after);
        }
    }
    Ok(())
})
}

// Whether a keeper whose put failed is reopened in its own banks, and then takes a put.
fn goes_on(mut keeper: Store) -> bool {
    let Ok(()) = keeper.reopen() else {
        return false;
    };
    keeper.put(1, &Record::from_octets(&[3; 20])).is_ok()
}

#[test]
fn a_put_cut_short_is_reopened() {
    std::test::check(|rt: HostRuntime| -> Result<(), Fail> {
    for how in HOW {
        for nth in 13..19 {
            let Some(keeper) = cut_short(rt.alloc(), nth, how)? else {
                return Err(Fail::from("not cut short"));
            };
            assert!(rt; goes_on(keeper));
        }
    }
    Ok(())
})
}
