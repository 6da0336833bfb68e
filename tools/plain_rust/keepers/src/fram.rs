//! A keeper over FRAM: memory that keeps what is written without power, octet by octet, with no erase.
use plc_base::{Failed, Keeper, Record};

/// FRAM, as firmware gives it.
///
/// An octet that was written reads so each time. Of a `write` in which power fails any octets are written, others as before, and each of them may
/// read as anything, anew each time, until it is written again; but one over which its own value is written stays (a part writes it back at each reading too).
/// No other octet changes. Most parts finish the cycle of an octet by the charge of a capacitor, and are better than that.
pub trait Fram {
    /// How many octets there are.
    fn size(&self) -> usize;

    /// Reads the octets from a place on.
    fn read(&self, at: usize, octets: &mut [u8]);

    /// Writes octets from a place on, and no other. It answers Ok only when they are written.
    fn write(&mut self, at: usize, octets: &[u8]) -> Result<(), Failed>;
}

/// How many places a meter needs: one for each slot that it uses.
pub const OF_METER: usize = 166;
/// How many places a coordinator needs.
pub const OF_COORDINATOR: usize = 1_165;

/// The first octets of a store: a name, the last octet of which is the number of the layout.
const NAME: [u8; 8] = *b"KMFRAM\x00\x01";
/// A number of the last put, the length of the record, its octets, a check.
const COPY: usize = 70;
const CHECKED: usize = COPY - 4;
/// The length that stands for no record.
const NO_RECORD: u8 = 0xFF;

/// Why a store was not opened.
#[derive(Clone, Copy, Debug, PartialEq, Eq)]
pub enum OpenFault {
    /// A write failed. Open it again.
    Fram,
    /// There is no store of this layout. Format the memory, where this is a new device.
    NoStore,
    /// The memory is too small for so many places (`size_of`).
    Small,
    /// Neither copy of a place is right: bits have changed by themselves. Format the memory, and join again; never go on with what is left.
    Decayed,
}

/// How many octets a store of so many places takes: 23,248 for a meter, 163,108 for a coordinator.
pub const fn size_of(places: usize) -> usize {
    NAME.len() + 2 * COPY * places
}

/// The place of a slot, None where no node has such a slot.
fn place_of(slot: u32) -> Option<usize> {
    let place = match slot {
        1..=6 => slot - 1,
        0x0100..=0x013F => slot - 0x0100 + 6,
        0x0200..=0x023F => slot - 0x0200 + 70,
        0x0300..=0x031F => slot - 0x0300 + 134,
        0x1000..=0x13E6 => slot - 0x1000 + 166,
        _ => return None,
    };
    Some(place as usize)
}

/// CRC-32, as of Ethernet.
fn check_of(place: usize, octets: &[u8]) -> [u8; 4] {
    let mut check = u32::MAX;
    for octet in (place as u32).to_le_bytes().iter().chain(octets) {
        check ^= u32::from(*octet);
        for _ in 0..8 {
            check = if check % 2 == 1 { (check >> 1) ^ 0xEDB8_8320 } else { check >> 1 };
        }
    }
    (!check).to_le_bytes()
}

/// A copy of a place, as it is written. None stands for no record.
fn copy_of(place: usize, number: u8, record: Option<&Record>) -> [u8; COPY] {
    let mut copy = [0; COPY];
    copy[0] = number;
    copy[1] = NO_RECORD;
    if let Some(record) = record {
        copy[1] = record.len() as u8;
        copy[2..2 + record.len()].copy_from_slice(record.octets());
    }
    let check = check_of(place, &copy[..CHECKED]);
    copy[CHECKED..].copy_from_slice(&check);
    copy
}

/// Whether a copy is one that was written whole.
fn is_right(place: usize, copy: &[u8; COPY]) -> bool {
    *copy != [0; COPY] && copy[CHECKED..] == check_of(place, &copy[..CHECKED]) && (copy[1] <= 64 || copy[1] == NO_RECORD)
}

/// Which of the copies of a place counts: of two that are right the later one.
fn newest(place: usize, copies: &[[u8; COPY]; 2]) -> Option<usize> {
    match (is_right(place, &copies[0]), is_right(place, &copies[1])) {
        (false, false) => None,
        (true, false) => Some(0),
        (true, true) if copies[1][0] != copies[0][0].wrapping_add(1) => Some(0),
        _ => Some(1),
    }
}

/// A keeper over FRAM.
///
/// Each place has two copies, one of which is right while the other one is all zeros. A put writes the other one, and then zeros over the one from before: so
/// a key that was replaced is gone. Where power failed, an opening makes one of both firm, and the other one zeros, before it answers.
pub struct FramKeeper<F: Fram> {
    fram: F,
    places: usize,
    has_failed: bool,
}

impl<F: Fram> FramKeeper<F> {
    /// Makes a store with no record: for a new device, since all that the memory held is lost. It gives the memory back with its fault, Fram or Small.
    pub fn format(fram: F, places: usize) -> Result<FramKeeper<F>, (OpenFault, F)> {
        let mut keeper = FramKeeper { fram, places, has_failed: false };
        if keeper.fram.size() < size_of(places) {
            return Err((OpenFault::Small, keeper.fram));
        }
        match keeper.cleared() {
            Ok(()) => Ok(keeper),
            Err(Failed) => Err((OpenFault::Fram, keeper.fram)),
        }
    }

    /// Opens the store after a start, or after a put that failed. It gives the memory back with its fault.
    pub fn open(fram: F, places: usize) -> Result<FramKeeper<F>, (OpenFault, F)> {
        let mut keeper = FramKeeper { fram, places, has_failed: false };
        if keeper.fram.size() < size_of(places) {
            return Err((OpenFault::Small, keeper.fram));
        }
        let mut name = [0; NAME.len()];
        keeper.fram.read(0, &mut name);
        if name != NAME {
            return Err((OpenFault::NoStore, keeper.fram));
        }
        if (0..places).any(|place| newest(place, &keeper.copies(place)).is_none()) {
            return Err((OpenFault::Decayed, keeper.fram));
        }
        match (0..places).try_for_each(|place| keeper.settle(place)) {
            Ok(()) => Ok(keeper),
            Err(Failed) => Err((OpenFault::Fram, keeper.fram)),
        }
    }

    /// The memory, to be opened again.
    pub fn into_fram(self) -> F {
        self.fram
    }

    fn cleared(&mut self) -> Result<(), Failed> {
        self.fram.write(0, &[0; NAME.len()])?;
        for place in 0..self.places {
            self.fram.write(at(place, 0), &copy_of(place, 0, None))?;
            self.fram.write(at(place, 1), &[0; COPY])?;
        }
        self.fram.write(0, &NAME)
    }

    fn copies(&self, place: usize) -> [[u8; COPY]; 2] {
        let mut copies = [[0; COPY]; 2];
        for (which, copy) in copies.iter_mut().enumerate() {
            self.fram.read(at(place, which), copy);
        }
        copies
    }

    /// Makes firm what a loss of power left of a place. Nobody was told of it yet, so either record would do.
    fn settle(&mut self, place: usize) -> Result<(), Failed> {
        let copies = self.copies(place);
        let which = newest(place, &copies).ok_or(Failed)?;
        let other = copies[1 - which];
        if other == [0; COPY] {
            return Ok(());
        }
        if is_right(place, &other) {
            // Power failed when the later one was written, which may read as it should by chance; or after that, and then this changes nothing.
            self.fram.write(at(place, which), &copies[which])?;
        }
        self.fram.write(at(place, 1 - which), &[0; COPY])
    }

    fn written(&mut self, place: usize, record: &Record) -> Result<(), Failed> {
        let copies = self.copies(place);
        let which = newest(place, &copies).ok_or(Failed)?;
        self.fram.write(at(place, 1 - which), &copy_of(place, copies[which][0].wrapping_add(1), Some(record)))?;
        self.fram.write(at(place, which), &[0; COPY])
    }
}

/// Where a copy of a place begins.
fn at(place: usize, which: usize) -> usize {
    NAME.len() + COPY * (2 * place + which)
}

impl<F: Fram> Keeper for FramKeeper<F> {
    fn get(&self, slot: u32) -> Option<Record> {
        let place = place_of(slot).filter(|it| *it < self.places)?;
        let copies = self.copies(place);
        let copy = copies[newest(place, &copies)?];
        if copy[1] == NO_RECORD {
            return None;
        }
        Some(Record::from_octets(&copy[2..2 + copy[1] as usize]))
    }

    /// Writes the record. It fails where a write failed, and where there is no place for the slot. After `Failed` each further put fails, until the memory
    /// is opened again.
    fn put(&mut self, slot: u32, octets: &Record) -> Result<(), Failed> {
        let place = place_of(slot).filter(|it| *it < self.places && !self.has_failed).ok_or(Failed)?;
        self.has_failed = true;
        self.written(place, octets)?;
        self.has_failed = false;
        Ok(())
    }
}
