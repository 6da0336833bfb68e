//! The loop of a meter, in calls that a task makes.
use crate::Flash;
use core::mem::MaybeUninit;
use meter_node::Meter;
use node_rules::{Came, Heard, MeterHeard, Unheard};
use plc_station::{Buffers, OpenFault};
use plc_base::{DatagramBuf, Eui, FrameBuf, Grant, Key, LinkCost, Out, RandomOctets, Short};
use rattle_std::alloc::Global;

/// The power line and what stands behind the meter.
pub trait Modem {
    /// Sends a frame. Frames leave in the order of these calls.
    fn transmit(&mut self, frame: &[u8]);

    /// Takes a datagram that another node sent to this one.
    fn take(&mut self, from: Short, datagram: &[u8]);
}

/// What a call could not do.
#[derive(Clone, Copy, Debug, PartialEq, Eq)]
pub enum Trouble {
    /// The node refused it, and is as before.
    Refused,
    /// A write to the flash failed: the node is halted. Open the flash again, and call `reopen`.
    Halted,
}

/// A meter with all that it is lent. It takes no memory after `open`.
pub struct Driver {
    meter: Meter<Flash>,
    out: Out,
    buffers: Buffers,
}

/// Opens the meter into a place for one. A move out of the answer would make a second copy of it on the stack.
#[inline(never)]
fn open_meter(place: *mut Meter<Flash>, flash: Flash, eui: Eui, psk: Key) -> Result<(), OpenFault> {
    let opened = Meter::open(Global, flash, eui, psk);
    match &opened {
        Ok(meter) => unsafe { place.copy_from_nonoverlapping(meter, 1) },
        Err((fault, _)) => return Err(*fault),
    }
    // It lives on in its place.
    core::mem::forget(opened);
    Ok(())
}

impl Driver {
    /// Opens the meter, once after power comes: it reads the flash.
    pub fn open(flash: Flash, eui: Eui, psk: Key) -> Result<Driver, OpenFault> {
        let mut place = MaybeUninit::uninit();
        Driver::open_at(&mut place, flash, eui, psk)?;
        // It was opened there.
        Ok(unsafe { place.assume_init() })
    }

    /// The same where the driver stays. Only the meter is on the stack on its way there, and once: so open it before you start tasks.
    pub fn open_at(place: &mut MaybeUninit<Driver>, flash: Flash, eui: Eui, psk: Key) -> Result<&mut Driver, OpenFault> {
        let at = place.as_mut_ptr();
        // Each field is written once, and none is read before.
        unsafe {
            open_meter(&raw mut (*at).meter, flash, eui, psk)?;
            let Ok(out) = Out::new(Global) else {
                (&raw mut (*at).meter).drop_in_place();
                return Err(OpenFault::Memory);
            };
            (&raw mut (*at).out).write(out);
            (&raw mut (*at).buffers.payload).write(FrameBuf::new());
            (&raw mut (*at).buffers.datagram).write(DatagramBuf::new());
            Ok(place.assume_init_mut())
        }
    }

    /// Takes the grant that a workshop gives, in place of joining over the air.
    pub fn provision(&mut self, grant: &Grant) -> Result<(), Trouble> {
        self.meter.provision(grant).map_err(|_| self.trouble())
    }

    /// Gives 16 octets of the random source, which it never gave before: one call before each `join`.
    pub fn give_random(&mut self, value: RandomOctets) -> Result<(), Trouble> {
        self.meter.give_random(value).map_err(|_| self.trouble())
    }

    /// Asks an agent for a place in the network.
    pub fn join(&mut self, modem: &mut impl Modem, agent: Short, now: u64) -> Result<(), Trouble> {
        self.meter.join(agent, now, &mut self.out).map_err(|_| self.trouble())?;
        self.flush(modem);
        Ok(())
    }

    /// Notes that the node of this address is a neighbour.
    pub fn has_neighbour(&mut self, address: Short, cost: LinkCost, now: u64) -> Result<(), Trouble> {
        self.meter.station().preset_near(address, cost, now).map_err(|_| self.trouble())
    }

    /// Sends a datagram of 1 to 1,280 octets. Its frames leave at once, or when a route is found.
    pub fn send(&mut self, modem: &mut impl Modem, to: Short, datagram: &[u8], now: u64) -> Result<(), Trouble> {
        self.meter.station().send(to, datagram, 0, now, &mut self.out).map_err(|_| self.trouble())?;
        self.flush(modem);
        Ok(())
    }

    /// Takes a frame from the line, with the cost of the link that it came by.
    pub fn hear(&mut self, modem: &mut impl Modem, frame: &[u8], cost: LinkCost, now: u64) -> Result<(), Trouble> {
        let came = Came { cost, note: 0, time: now };
        match self.meter.receive(frame, came, &mut self.buffers, &mut self.out) {
            Ok(MeterHeard::Station(Heard::Up { from, octets, .. })) => modem.take(from, octets.octets()),
            Ok(_) => {}
            Err(Unheard::Halted | Unheard::Store) => return Err(Trouble::Halted),
            Err(Unheard::Refused(_) | Unheard::Dropped(_)) => return Err(Trouble::Refused),
        }
        self.flush(modem);
        Ok(())
    }

    /// Ends the routes by way of a neighbour that the modem gave up on.
    pub fn broke(&mut self, next: Short) -> Result<(), Trouble> {
        self.meter.station().broke(next).map_err(|_| self.trouble())
    }

    /// Gives up the address and the keys.
    pub fn leave(&mut self) -> Result<(), Trouble> {
        self.meter.leave().map_err(|_| self.trouble())
    }

    /// The address, where it is joined and not halted.
    pub fn address(&self) -> Option<Short> {
        self.meter.address()
    }

    /// When the next `tick` has something to end, in seconds. Ask after each call, and sleep until then.
    pub fn next_end(&self) -> Option<u64> {
        self.meter.next_end()
    }

    /// Ends what is old. Call it at `next_end`, or once a second, with the seconds since the meter began, which never go back.
    pub fn tick(&mut self, now: u64) {
        self.meter.tick(now);
    }

    /// Goes on after a write that failed, over the flash that was opened again: never over the object whose write failed, since what that one answers may
    /// not be what the next opening finds. Random values are to be given again.
    pub fn reopen(&mut self, flash: Flash) -> Result<(), Trouble> {
        *self.meter.station().keeper_mut() = flash;
        self.meter.restart().map_err(|_| Trouble::Halted)
    }

    fn trouble(&mut self) -> Trouble {
        if self.meter.station().halted() { Trouble::Halted } else { Trouble::Refused }
    }

    fn flush(&mut self, modem: &mut impl Modem) {
        for frame in self.out.frames.frames() {
            modem.transmit(frame.octets.octets());
        }
        self.out.clear();
    }
}
