//! Puts into a small store, in one of whose programs or erases power fails; then it is opened several times.

use std::dialect::*;

use flash_keeper::{Cut, FlashKeeper, ModelFlash};
use plc_base::{Keeper, Record};
use std::alloc::{AllocError, Global};
use std::test::Fail;

/// Six cells a bank, so that the log is copied often.
const WORDS: usize = 4 + 12 * 6;

/// The ways in which power can fail.
pub const HOW: [Cut; 3] = [Cut::Before, Cut::Within, Cut::After];

type Store = FlashKeeper<ModelFlash>;

fn record(k: u8) -> Record {
    Record::from_octets(&[k; 20])
}

// A store in which power fails at the nth operation of one of the banks.
fn store(alloc: Global, nth: u32, how: Cut, of_second: bool) -> Result<Option<Store>, AllocError> {
    let mut first = ModelFlash::new(alloc, WORDS, 0x9E37_79B9 + u64::from(nth))?;
    let mut second = ModelFlash::new(alloc, WORDS, 0x7F4A_7C15 + u64::from(nth))?;
    if of_second {
        second.cut(nth, how);
    } else {
        first.cut(nth, how);
    }
    match FlashKeeper::format(first, second, 12, 3) {
        Ok(keeper) => Ok(Some(keeper)),
        Err((_, first, second)) => Ok(FlashKeeper::format(first, second, 12, 3).ok()),
    }
}

// How many of 14 puts succeed, by turns at three slots.
fn put_all(keeper: &mut Store) -> u8
    // ensures { result ≤ 14 }
{
    for k in 0..14 {
        if keeper.put(1 + u32::from(k % 3), &record(k)).is_err() {
            return k;
        }
    }
    14
}

// Whether a slot has the last record of the first puts that was put there.
fn has(keeper: &Store, slot: u32, puts: u8) -> bool
    // requires { (1 ≤ slot) × (slot ≤ 3) }
{
    let mut want = None;
    for k in 0..puts {
        if 1 + u32::from(k % 3) == slot {
            want = Some(record(k));
        }
    }
    keeper.get(slot) == want
}

fn has_all(keeper: &Store, puts: u8) -> bool {
    has(keeper, 1, puts) && has(keeper, 2, puts) && has(keeper, 3, puts)
}

// The same store, opened again: a second time where power fails in the opening.
fn again(keeper: Store) -> Option<Store> {
    let (first, second) = keeper.into_banks();
    match FlashKeeper::open(second, first) {
        Ok(keeper) => Some(keeper),
        Err((_, first, second)) => FlashKeeper::open(first, second).ok(),
    }
}

// Whether a run ends as it has to: what was put is there, and the put that failed is there or not, each time the same.
fn is_right(keeper: Store) -> Option<bool> {
    let mut keeper = keeper;
    let puts = put_all(&mut keeper);
    if !has_all(&keeper, puts) {
        return Some(false);
    }
    let keeper = again(keeper)?;
    let all = has_all(&keeper, puts + 1);
    let found = if all { puts + 1 } else { puts };
    if !has_all(&keeper, found) {
        return Some(false);
    }
    let keeper = again(again(keeper)?)?;
    Some(has_all(&keeper, found))
}

#[test]
fn power_fails_at_each_operation() {
    std::test::check(|rt: HostRuntime| -> Result<(), Fail> {
    for of_second in [false, true] {
        for how in HOW {
            for nth in 1..90 {
                let Some(keeper) = store(rt.alloc(), nth, how, of_second)? else {
                    return Err(Fail::from("not formatted"));
                };
                assert_eq!(rt; is_right(keeper), Some(true));
            }
        }
    }
    Ok(())
})
}
