//! A meter over flash: the factory, a start, a write that fails, a loss of power, years. `spi_nor.rs` is a driver for a part; the part itself is one in memory
//! here, which programs and erases as the command set says, and stops in the middle of either where it is told to.
//!
//!     cargo run --features flash --example flash
mod spi_nor;

use kennelmorn_node::flash_keeper::{FlashKeeper, OpenFault, has_decayed, layout_of};
use kennelmorn_node::meter_node::Meter;
use kennelmorn_node::node_rules::SendRefusal;
use kennelmorn_node::plc_base::{Eui, Failed, Grant, Key, KeyIndex, LinkCost, Out, Short};
use kennelmorn_node::rattle_std::alloc::Global;
use spi_nor::{Spi, SpiBank};
use std::cell::RefCell;

/// The words that the records of a meter take in a bank, with every slot in use, and the puts and openings that there are between two erases of it.
const WORDS: usize = 339;
const PUTS: usize = 184;
/// Two banks of 20 KiB.
const SECTORS: usize = 5;
/// Where the second one begins.
const SECOND: u32 = 0x8000;

/// A part of 64 KiB.
struct Part {
    octets: Vec<u8>,
    may_write: bool,
    /// How many programs and erases come until power fails in one.
    power: Option<u32>,
}

impl Part {
    /// Whether power holds for a program or an erase, which else is done in part.
    fn holds(&mut self) -> bool {
        self.power = self.power.map(|it| it.saturating_sub(1));
        self.power != Some(0)
    }
}

impl Spi for Part {
    fn transfer(&mut self, out: &[u8], into: &mut [u8]) -> Result<(), Failed> {
        let at = if out.len() >= 4 { usize::from(out[1]) << 16 | usize::from(out[2]) << 8 | usize::from(out[3]) } else { 0 };
        match out[0] {
            0x06 => self.may_write = true,
            0x03 => into.copy_from_slice(&self.octets[at..at + into.len()]),
            0x05 => into.fill(0),
            0x02 | 0x20 if !std::mem::take(&mut self.may_write) => return Err(Failed),
            0x02 => {
                assert!(at % 256 + out.len() - 4 <= 256, "a program stays within its page");
                let count = if self.holds() { out.len() - 4 } else { 3 };
                self.octets[at..].iter_mut().zip(&out[4..4 + count]).for_each(|(old, new)| *old &= new);
            }
            0x20 => {
                let count = if self.holds() { 4096 } else { 100 };
                self.octets[at..at + count].fill(0xFF);
            }
            _ => return Err(Failed),
        }
        Ok(())
    }

    fn has_power(&mut self) -> bool {
        self.power != Some(0)
    }

    fn pause(&mut self) {}
}

type Flash<'a> = FlashKeeper<SpiBank<'a, Part>>;

fn banks(part: &RefCell<Part>) -> (SpiBank<'_, Part>, SpiBank<'_, Part>) {
    (SpiBank::new(part, 0, SECTORS), SpiBank::new(part, SECOND, SECTORS))
}

/// In the factory, once: it erases both banks.
fn factory(part: &RefCell<Part>) {
    let (first, second) = banks(part);
    // Flash: try again with the banks that come back. Small, Sizes: the build is wrong.
    FlashKeeper::format(first, second, WORDS, PUTS).map_err(|it| it.0).expect("the factory's flash");
}

/// At each start: the store, by what each fault means.
fn store(part: &RefCell<Part>) -> Result<Flash<'_>, &'static str> {
    let (mut first, mut second) = banks(part);
    for _ in 0..3 {
        match FlashKeeper::open(first, second) {
            Ok(keeper) => return Ok(keeper),
            Err((OpenFault::Flash | OpenFault::NoStore, one, other)) => (first, second) = (one, other),
            Err((OpenFault::Decayed, ..)) => return Err("bits have changed: alarm, format, join again"),
            Err((OpenFault::Small | OpenFault::Sizes, ..)) => return Err("the build is wrong"),
        }
    }
    Err("alarm: the flash does not program, or was never formatted")
}

fn open<'a>(part: &'a RefCell<Part>) -> Meter<Flash<'a>> {
    let keeper = store(part).expect("a store");
    Meter::open(Global, keeper, Eui([0, 0, 0, 0, 0, 0, 0, 2]), Key([0x10; 16])).map_err(|it| it.0).expect("the records of a meter")
}

/// Sends to the coordinator, and answers the counter of the frame: its octets 10 to 13.
fn send(meter: &mut Meter<Flash<'_>>, out: &mut Out, now: u64) -> Result<u32, SendRefusal> {
    let coordinator = Short::new(0).expect("an address");
    meter.station().send(coordinator, b"42.7", 1, now, out)?;
    let frame = out.frames.frames()[0].octets.octets();
    let counter = u32::from_le_bytes(frame[10..14].try_into().expect("four octets"));
    out.clear();
    Ok(counter)
}

/// After a write that failed: the store is opened again in the same banks, which settles whether the old record counts or the new one.
fn go_on(meter: &mut Meter<Flash<'_>>) {
    meter.station().keeper_mut().reopen().expect("the flash programs again");
    meter.restart().expect("the records of a meter");
}

fn main() {
    let part = RefCell::new(Part { octets: vec![0xA5; 0x1_0000], may_write: false, power: None });
    let mut out = Out::new(Global).expect("memory");
    factory(&part);

    // The workshop: the coordinator's grant is stored.
    let mut meter = open(&part);
    let (address, coordinator) = (Short::new(1).expect("an address"), Short::new(0).expect("an address"));
    meter.provision(&Grant { address, active: KeyIndex::first(), keys: [Some(Key([0x20; 16])), None] }).expect("the flash programs");
    meter.station().preset_near(coordinator, LinkCost::new(3).expect("a cost"), 0).expect("the flash programs");
    let first = send(&mut meter, &mut out, 0).expect("it has a route");
    println!("joined as {:04x}; the first frame has counter {first}", address.number());

    // Power fails at the third program of a write: nothing of that call leaves, and the meter halts.
    part.borrow_mut().power = Some(3);
    let mut last = first;
    while let Ok(counter) = send(&mut meter, &mut out, 0) {
        assert_eq!(counter, last + 1);
        last = counter;
    }
    assert!(meter.station().halted() && out.frames.is_empty());
    part.borrow_mut().power = None;
    go_on(&mut meter);
    println!("a write failed after counter {last}; it goes on as {:04x}", meter.address().expect("it has joined").number());

    // Power is lost for good, in the middle of another write: only the part is left.
    meter.station().preset_near(Short::new(7).expect("an address"), LinkCost::new(9).expect("a cost"), 0).expect("the flash programs");
    part.borrow_mut().power = Some(2);
    let lost = meter.station().preset_near(Short::new(8).expect("an address"), LinkCost::new(9).expect("a cost"), 0);
    drop(meter);
    part.borrow_mut().power = None;
    let mut meter = open(&part);
    assert!(lost.is_err() && meter.address() == Some(address));
    let next = send(&mut meter, &mut out, 9);
    println!("after a loss of power it is {:04x} still; without a route it {}", address.number(), if next.is_ok() { "asks for one" } else { "stops" });

    // After a leave the old keys are taken out of the flash; now and then it is looked at whether bits have changed.
    meter.leave().expect("the flash programs");
    meter.station().keeper_mut().purge().expect("the flash programs");
    assert!(!has_decayed(meter.station().keeper_mut().live()));
    let key = [0x20; 16];
    let is_there = part.borrow().octets.windows(16).any(|it| it == key);
    println!("it has left, and its key is {}", if is_there { "still in the flash" } else { "in the flash no more" });
    assert!(!is_there && meter.address().is_none());

    // A bit of a record changes by itself, which the next start sees.
    drop(meter);
    let live = [0, SECOND].into_iter().find(|it| layout_of(&SpiBank::new(&part, *it, SECTORS)).is_some()).expect("one bank has the store");
    part.borrow_mut().octets[live as usize + 32] ^= 1;
    println!("then a bit changes: {}", store(&part).err().unwrap_or("nobody sees it"));
}
