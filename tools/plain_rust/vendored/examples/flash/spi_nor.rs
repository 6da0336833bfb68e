//! A bank of SPI NOR flash for `flash_keeper`. Copy this file into your firmware, and give it your SPI.
//!
//! It is for parts without an ECC of their own (W25Q, MX25L and the like): each bit is programmed by itself, and a page program may touch a page again. A word of
//! the keeper is 8 octets, written by one page program that never crosses a page. Each program and each erase is read back, since the keeper believes an `Ok`.
use core::cell::RefCell;
use kennelmorn_node::flash_keeper::FlashBank;
use kennelmorn_node::plc_base::Failed;

/// A transfer with the part selected: sends the octets of `out`, then takes `into`. As `SpiDevice` of embedded-hal does.
pub trait Spi {
    fn transfer(&mut self, out: &[u8], into: &mut [u8]) -> Result<(), Failed>;
    /// Whether the supply is above the level at which the part programs and erases: below it neither is begun.
    fn has_power(&mut self) -> bool;
    /// Waits a little, 10 µs or so.
    fn pause(&mut self);
}

const WRITE_ENABLE: u8 = 0x06;
const PAGE_PROGRAM: u8 = 0x02;
const READ: u8 = 0x03;
const STATUS: u8 = 0x05;
const ERASE_SECTOR: u8 = 0x20;
const SECTOR: usize = 4096;
/// How often the status is asked: an erase of a sector takes 400 ms at most.
const PATIENCE: u32 = 100_000;

/// Some sectors of a part. Both banks of a store lie in one part, or each in one of its own.
pub struct SpiBank<'a, S: Spi> {
    spi: &'a RefCell<S>,
    first: u32,
    sectors: usize,
}

impl<'a, S: Spi> SpiBank<'a, S> {
    /// The bank of so many sectors of 4 KiB from an address on, which is that of a sector.
    pub fn new(spi: &'a RefCell<S>, first: u32, sectors: usize) -> SpiBank<'a, S> {
        SpiBank { spi, first, sectors }
    }

    /// The octets of a command at a place of the bank.
    fn command(&self, code: u8, at: usize) -> [u8; 4] {
        let [_, high, middle, low] = (self.first + at as u32).to_be_bytes();
        [code, high, middle, low]
    }

    /// Waits until the part has done what it was told.
    fn wait(&self, spi: &mut S) -> Result<(), Failed> {
        for _ in 0..PATIENCE {
            let mut status = [0xFF];
            spi.transfer(&[STATUS], &mut status)?;
            if status[0] & 1 == 0 {
                return Ok(());
            }
            spi.pause();
        }
        Err(Failed)
    }

    fn write(&self, octets: &[u8]) -> Result<(), Failed> {
        let mut spi = self.spi.borrow_mut();
        if !spi.has_power() {
            return Err(Failed);
        }
        spi.transfer(&[WRITE_ENABLE], &mut [])?;
        spi.transfer(octets, &mut [])?;
        self.wait(&mut spi)
    }
}

impl<S: Spi> FlashBank for SpiBank<'_, S> {
    fn words(&self) -> usize {
        self.sectors * SECTOR / 8
    }

    /// Where the transfer fails, any number that is no head of a store: the next read is asked anew.
    fn read(&self, at: usize) -> u64 {
        let mut octets = [0; 8];
        match self.spi.borrow_mut().transfer(&self.command(READ, 8 * at), &mut octets) {
            Ok(()) => u64::from_le_bytes(octets),
            Err(Failed) => 0,
        }
    }

    fn program(&mut self, at: usize, word: u64) -> Result<(), Failed> {
        let mut octets = [0; 12];
        octets[..4].copy_from_slice(&self.command(PAGE_PROGRAM, 8 * at));
        octets[4..].copy_from_slice(&word.to_le_bytes());
        self.write(&octets)?;
        if self.read(at) == word { Ok(()) } else { Err(Failed) }
    }

    /// The sector with word 0 comes first, so that a bank that is erased in part has no head.
    fn erase(&mut self) -> Result<(), Failed> {
        for sector in 0..self.sectors {
            self.write(&self.command(ERASE_SECTOR, SECTOR * sector))?;
        }
        if (0..self.words()).all(|at| self.read(at) == u64::MAX) { Ok(()) } else { Err(Failed) }
    }
}
