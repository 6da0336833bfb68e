//! What the two programs have in common: each has every call of a node over a `FlashKeeper` as a function of its own, so that its stack can be measured.
//! `.ci/stacks` builds and measures them; they are never run.
#![no_std]

use core::ffi::c_void;
use core::hint::black_box;
use flash_keeper::{FlashBank, FlashKeeper};
use plc_base::{Eui, Failed, Keeper, Key, KeyIndex, LinkCost, Out, RandomOctets, Record, Short};
use plc_station::Buffers;

unsafe extern "C" {
    fn bank_read(bank: u32, at: usize) -> u64;
    fn bank_program(bank: u32, at: usize, word: u64) -> bool;
    fn bank_erase(bank: u32) -> bool;
    fn board_event() -> *const c_void;
}

/// A bank of flash, which is its address.
pub struct Bank(u32);

impl FlashBank for Bank {
    fn words(&self) -> usize {
        4096
    }

    fn read(&self, at: usize) -> u64 {
        unsafe { bank_read(self.0, at) }
    }

    fn program(&mut self, at: usize, word: u64) -> Result<(), Failed> {
        if unsafe { bank_program(self.0, at, word) } { Ok(()) } else { Err(Failed) }
    }

    fn erase(&mut self) -> Result<(), Failed> {
        if unsafe { bank_erase(self.0) } { Ok(()) } else { Err(Failed) }
    }
}

/// The keeper of a node.
pub type Flash = FlashKeeper<Bank>;

/// The keeper of the two banks.
pub fn flash() -> Option<Flash> {
    FlashKeeper::open(Bank(0x0800_0000), Bank(0x0801_0000)).ok()
}

/// What a call is given.
pub struct Event {
    pub call: usize,
    pub eui: Eui,
    pub key: Key,
    pub random: RandomOctets,
    pub index: KeyIndex,
    pub short: Short,
    pub cost: LinkCost,
    pub code: u8,
    pub now: u64,
    pub count: usize,
    pub octets: [u8; 1280],
}

impl Event {
    /// The octets of a frame or a datagram.
    pub fn octets(&self) -> &[u8] {
        &self.octets[..self.count]
    }
}

/// The next event of the board.
pub fn next_event() -> &'static Event {
    // The board has it for good.
    unsafe { &*board_event().cast() }
}

/// What a node is lent.
pub struct Lent {
    pub out: Out,
    pub buffers: Buffers,
}

/// Looks at an answer as its caller does, so that the compiler leaves nothing of it out.
pub fn done<T, E>(answer: Result<T, E>) -> bool {
    black_box(&answer).is_ok()
}

/// A keeper of no size, for the sizes of nodes without theirs.
pub struct Nothing;

impl Keeper for Nothing {
    fn get(&self, _: u32) -> Option<Record> {
        None
    }

    fn put(&mut self, _: u32, _: &Record) -> Result<(), Failed> {
        Err(Failed)
    }
}
