//! The coordinator's book of meters.
use crate::Done;
use group_keys::{BookEntry, KeyBook};
use plc_base::{Eui, Keeper, Key, MemKeeper};
use rattle_std::alloc::Global;
use rattle_std::process::HostRuntime;
use store_tables::SlotEntry;

/// How many meters a book has room for.
const METERS: u32 = 999;

// The identity of a meter. Numbers that follow one another are far apart, so that no order of the entries helps a look-up.
fn meter(number: u32) -> Eui {
    Eui(u64::from(number).wrapping_mul(0x9E37_79B9_7F4A_7C15).to_be_bytes())
}

// Stores the entries of `count` meters, and answers how many were stored.
fn store_entries(keeper: &mut MemKeeper, count: u32) -> u32 {
    for number in 0..count {
        let entry = BookEntry { eui: meter(number), psk: Key([0xa5; 16]), allowed: true, issued0: None, issued1: None };
        let place = number as usize;
        if keeper.put(BookEntry::slot(place), &entry.record(place)).is_err() {
            return number;
        }
    }
    count
}

#[inline(never)]
fn open(alloc: Global, keeper: &MemKeeper) -> Option<KeyBook> {
    KeyBook::open(alloc, keeper).ok()
}

// Looks each of the first `count` meters up once, and answers how many are known.
#[inline(never)]
fn look_up(book: &KeyBook, count: u32) -> usize {
    (0..count).filter(|&number| book.entry(meter(number)).is_some()).count()
}

/// Opens a book of `count` entries, or of 999 where `count` is more, and looks each of them up once. Prints how many there are, and how many were found.
pub fn run(rt: &HostRuntime, count: u32) -> Done {
    let mut keeper = MemKeeper::new(rt.alloc()).map_err(|_| "no memory for the store")?;
    let count = store_entries(&mut keeper, count.min(METERS));
    let book = open(rt.alloc(), &keeper).ok_or("the book has no reading")?;
    println!("book {} {}", book.entries().len(), look_up(&book, count));
    Ok(())
}
