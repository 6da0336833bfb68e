//! A node with all that it is lent, in memory of the caller.
use crate::codes::{self, BAD_STORE, DONE, HALTED, MALFORMED, MEMORY, REFUSED, Refusal, STORE_FAILED};
use crate::device::Device;
use crate::memory::lending;
use coordinator::Coordinator;
use core::ffi::{c_int, c_void};
use meter_node::Meter;
use node_rules::{Came, CoordinatorHeard, Heard, MeterHeard, RandomFault, Unheard};
use plc_base::{BadStore, DatagramBuf, Eui, FrameBuf, Key, Out, RandomOctets, Short};
use plc_station::{Buffers, OpenFault, Station};
use rattle_std::alloc::Global;

/// What C sees of a node (`struct meter`, `struct coordinator`).
#[repr(C)]
pub struct Head {
    pub ended: c_int,
    pub refusal: c_int,
    pub heard: c_int,
    pub is_doing: c_int,
}

/// A node: what C sees of it, and what it does not.
#[repr(C)]
pub struct Lodged<N> {
    head: Head,
    pub inner: Inner<N>,
}

pub struct Inner<N> {
    pub node: N,
    pub out: Out,
    buffers: Buffers,
    device: Device,
}

/// What both kinds of nodes do.
pub trait Node: Sized {
    /// What its heap takes at most.
    const HEAP: usize;

    fn station(&mut self) -> &mut Station<Device>;
    fn address(&self) -> Option<Short>;
    fn next_end(&self) -> Option<u64>;
    fn tick(&mut self, now: u64);
    fn restart(&mut self) -> Result<(), BadStore>;
    fn give_random(&mut self, value: RandomOctets) -> Result<(), RandomFault>;
    /// Takes a frame: what was heard of it, and what is handed up.
    fn receive<'a>(&mut self, frame: &[u8], came: Came, buffers: &'a mut Buffers, out: &mut Out) -> Result<(c_int, Up<'a>), Unheard>;
}

/// A datagram that is handed up: its sender, its note and its octets.
pub type Up<'a> = Option<(u16, u32, &'a [u8])>;

fn up_of<'a>(heard: Heard<'a>) -> Up<'a> {
    match heard {
        Heard::Up { from, note, octets } => Some((from.number(), note, octets.octets())),
        _ => None,
    }
}

// What both do by a method of the same name.
macro_rules! node {
    ($node:ident, $heap:expr, $heard:ident, $code:path) => {
        impl Node for $node<Device> {
            const HEAP: usize = $heap;

            fn station(&mut self) -> &mut Station<Device> {
                self.station()
            }

            fn address(&self) -> Option<Short> {
                self.address()
            }

            fn next_end(&self) -> Option<u64> {
                self.next_end()
            }

            fn tick(&mut self, now: u64) {
                self.tick(now);
            }

            fn restart(&mut self) -> Result<(), BadStore> {
                self.restart()
            }

            fn give_random(&mut self, value: RandomOctets) -> Result<(), RandomFault> {
                self.give_random(value)
            }

            fn receive<'a>(&mut self, frame: &[u8], came: Came, buffers: &'a mut Buffers, out: &mut Out) -> Result<(c_int, Up<'a>), Unheard> {
                let heard = self.receive(frame, came, buffers, out)?;
                let code = $code(&heard);
                Ok((code, if let $heard::Station(heard) = heard { up_of(heard) } else { None }))
            }
        }
    };
}

// What a node and the `Out` that it is lent take at its opening: `desk.c` finds that it is enough, and that 64 octets fewer are not.
node!(Meter, if cfg!(target_pointer_width = "64") { 31_456 } else { 29_536 }, MeterHeard, codes::of_meter);
node!(Coordinator, if cfg!(target_pointer_width = "64") { 92_400 } else { 90_480 }, CoordinatorHeard, codes::of_coordinator);

/// How much memory a node takes, wherever it begins.
pub const fn room<N: Node>() -> usize {
    size_of::<Lodged<N>>() + align_of::<Lodged<N>>() - 1 + N::HEAP
}

/// Opens a node into a place for one: a move out of the answer would make a second copy of it on the stack.
#[inline(never)]
fn open_node<N>(place: *mut N, open: impl FnOnce() -> Result<N, OpenFault>) -> Result<(), OpenFault> {
    let node = open()?;
    unsafe { place.write(node) };
    Ok(())
}

fn number_of(fault: OpenFault) -> c_int {
    match fault {
        OpenFault::Memory => MEMORY,
        OpenFault::BadStore(_) => BAD_STORE,
        OpenFault::Store => STORE_FAILED,
    }
}

/// Opens a node in memory of the caller: its place there, or why not. `open` makes the node over the device's store.
///
/// # Safety
/// The memory has so many octets, and is the node's until it is opened anew.
pub unsafe fn open_in<N: Node>(memory: *mut c_void, size: usize, device: &Device, open: impl FnOnce(Device) -> Result<N, OpenFault>)
        -> Result<*mut Lodged<N>, c_int> {
    let start = memory.cast::<u8>();
    let skipped = start.align_offset(align_of::<Lodged<N>>());
    let taken = skipped.checked_add(size_of::<Lodged<N>>()).ok_or(MEMORY)?;
    if memory.is_null() || !device.is_whole() {
        return Err(MALFORMED);
    }
    let heap = size.checked_sub(taken).ok_or(MEMORY)?;
    let place = start.wrapping_add(skipped).cast::<Lodged<N>>();
    // Each field is written once, and none is read before.
    let opened = lending(start.wrapping_add(taken), heap, || unsafe {
        let out = Out::new(Global).map_err(|_| MEMORY)?;
        open_node(&raw mut (*place).inner.node, || open(*device)).map_err(number_of)?;
        (&raw mut (*place).inner.out).write(out);
        Ok(())
    });
    opened.unwrap_or(Err(MALFORMED))?;
    unsafe {
        (&raw mut (*place).inner.buffers.payload).write(FrameBuf::new());
        (&raw mut (*place).inner.buffers.datagram).write(DatagramBuf::new());
        (&raw mut (*place).inner.device).write(*device);
        (&raw mut (*place).head).write(Head { ended: DONE, refusal: 0, heard: 0, is_doing: 0 });
        draw(&mut (*place).inner);
    }
    Ok(place)
}

/// Gives a random value of the device, where it has one. A node that holds enough refuses it.
pub fn draw<N: Node>(inner: &mut Inner<N>) {
    if let Some(value) = inner.device.random() {
        let _ = inner.node.give_random(value);
    }
}

/// Makes a call of a node that takes calls, and answers how it ended. While a callback runs no call goes on, since the node is lent.
///
/// # Safety
/// The node was opened, or is null.
pub unsafe fn call<N: Node>(at: *mut Lodged<N>, make: impl FnOnce(&mut Inner<N>) -> Ended) -> c_int {
    if at.is_null() {
        return MALFORMED;
    }
    let head = unsafe { &raw mut (*at).head };
    unsafe {
        if (*head).is_doing != 0 {
            return MALFORMED;
        }
        (*head).refusal = 0;
        (*head).heard = 0;
        if (*head).ended != DONE {
            return (*head).ended;
        }
        (*head).is_doing = 1;
    }
    let inner = unsafe { &mut (*at).inner };
    let ended = make(inner);
    let status = if inner.node.station().halted() { if ended.was_halted { HALTED } else { STORE_FAILED } } else { ended.status };
    unsafe {
        (*head).refusal = if status == REFUSED { ended.refusal } else { 0 };
        (*head).heard = if status == DONE { ended.heard } else { 0 };
        if status == HALTED || status == STORE_FAILED {
            (*head).ended = status;
        }
        (*head).is_doing = 0;
    }
    status
}

/// Goes on after a write that failed, over the device's store, which was opened again.
///
/// # Safety
/// As for `call`.
pub unsafe fn restart<N: Node>(at: *mut Lodged<N>) -> c_int {
    if at.is_null() || unsafe { (*at).head.is_doing } != 0 {
        return MALFORMED;
    }
    let inner = unsafe { &mut (*at).inner };
    let status = if inner.node.restart().is_ok() { DONE } else { BAD_STORE };
    if status == DONE {
        draw(inner);
    }
    unsafe { (*at).head = Head { ended: status, refusal: 0, heard: 0, is_doing: 0 } };
    status
}

/// How a call ended.
pub struct Ended {
    pub status: c_int,
    refusal: c_int,
    heard: c_int,
    was_halted: bool,
}

impl Ended {
    pub fn with(status: c_int) -> Ended {
        Ended { status, refusal: 0, heard: 0, was_halted: false }
    }

    fn of<T, E: Refusal>(answer: &Result<T, E>) -> Ended {
        match answer {
            Ok(_) => Ended::with(DONE),
            Err(reason) => Ended { refusal: c_int::from(reason.number()), ..Ended::with(REFUSED) },
        }
    }
}

impl<N: Node> Inner<N> {
    /// Ends a call that gives frames in `out`: they leave where it was not refused, and no write failed.
    pub fn sent<T, E: Refusal>(&mut self, answer: Result<T, E>) -> Ended {
        let ended = Ended::of(&answer);
        if answer.is_ok() && !self.node.station().halted() {
            for frame in self.out.frames.frames() {
                self.device.send(frame.note, frame.octets.octets());
            }
        }
        self.out.clear();
        ended
    }

    /// Ends a call that gives no frames.
    pub fn done<T, E: Refusal>(&mut self, answer: Result<T, E>) -> Ended {
        Ended::of(&answer)
    }

    /// Takes a frame that came. Its frames leave first; then it is said that the meter has joined, and then what is handed up.
    pub fn hear(&mut self, frame: &[u8], came: Came) -> Ended {
        let (heard, up) = match self.node.receive(frame, came, &mut self.buffers, &mut self.out) {
            Ok(heard) => heard,
            Err(reason) => {
                self.out.clear();
                return Ended::of::<(), _>(&Err(reason));
            }
        };
        for frame in self.out.frames.frames() {
            self.device.send(frame.note, frame.octets.octets());
        }
        if let Some(address) = self.node.address().filter(|_| heard == codes::TOOK) {
            self.device.joined(address.number());
        }
        if let Some((from, note, octets)) = up {
            self.device.up(from, note, octets);
        }
        self.out.clear();
        if heard == codes::REPLIED || heard == codes::CHALLENGED {
            draw(self);
        }
        Ended { heard, ..Ended::with(DONE) }
    }
}

pub fn open_meter(device: Device, eui: Eui, psk: Key) -> Result<Meter<Device>, OpenFault> {
    Meter::open(Global, device, eui, psk).map_err(|it| it.0)
}

pub fn open_coordinator(device: Device, eui: Eui, key: &Key) -> Result<Coordinator<Device>, OpenFault> {
    Coordinator::open(Global, device, eui, key).map_err(|it| it.0)
}
