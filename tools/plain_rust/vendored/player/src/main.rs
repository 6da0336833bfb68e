//! Plays vectors.bin: opens, seals and reads frames; makes each call of meters and coordinators, and compares what they store, send and hand up, and how the
//! call ends, with what the proved programs did; then compares their stores. It holds one node at a time.
//!
//! On a host it is a program; on bare metal it runs under `qemu-arm -cpu max`, which has the two calls of Linux that `bare` prints with.
#![cfg_attr(target_os = "none", no_std, no_main)]

#[cfg(target_os = "none")]
mod bare;

use core::cell::RefCell;
use core::fmt::{Debug, Write};
use kennelmorn_node::coordinator::Coordinator;
use kennelmorn_node::frames_c::{FramesHead, Refusal, frames_open, frames_read, frames_seal};
use kennelmorn_node::meter_node::Meter;
use kennelmorn_node::node_rules::{Came, CoordinatorHeard, Heard, MeterHeard};
use kennelmorn_node::plc_base::{Eui, Failed, Grant, Keeper, Key, KeyIndex, LinkCost, Out, RandomOctets, Record, Short};
use kennelmorn_node::plc_station::Buffers;
use kennelmorn_node::rattle_std::alloc::Global;

static VECTORS: &[u8] = include_bytes!("../../vectors.bin");

// What a coordinator and its `Out` take at its opening; it is taken back before the next node opens.
#[cfg(target_os = "none")]
#[global_allocator]
static HEAP: bare::Heap<11_500> = bare::Heap::new();

/// Takes back all memory. No node is open.
fn forget() {
    #[cfg(target_os = "none")]
    HEAP.used.store(0, core::sync::atomic::Ordering::Relaxed);
}

/// The log.
struct Console;

impl Write for Console {
    fn write_str(&mut self, text: &str) -> core::fmt::Result {
        #[cfg(target_os = "none")]
        bare::print(text);
        #[cfg(not(target_os = "none"))]
        std::print!("{text}");
        Ok(())
    }
}

const OPEN: u8 = 0x02;
const GRANT: u8 = 0x03;
const NEIGHBOUR: u8 = 0x04;
const RANDOM: u8 = 0x05;
const JOIN: u8 = 0x06;
const LEAVE: u8 = 0x07;
const TIME: u8 = 0x08;
const SEND: u8 = 0x09;
const FRAME: u8 = 0x0A;
const BROKE: u8 = 0x0B;
const OPEN_COORDINATOR: u8 = 0x20;
const ALLOW: u8 = 0x21;
const DEPOT: u8 = 0x22;
const REKEY: u8 = 0x23;
const CHALLENGE: u8 = 0x24;
const ACTIVATE: u8 = 0x25;
const ACTIVATE_SELF: u8 = 0x26;
const KICK: u8 = 0x27;
const SEALED: u8 = 0x30;
const NODE: u8 = 0x31;
const STARTS: u8 = 0x32;
const STORED: u8 = 0x33;
const LAST: u8 = 0x34;
const ENDED: u8 = 0x80;
const RECORD: u8 = 0x81;
const SENT: u8 = 0x82;
const UP: u8 = 0x83;
const JOINED: u8 = 0x84;
const ALLOWED: u8 = 0x85;
const GRANTED: u8 = 0x86;
const GIVEN_OUT: u8 = 0x87;

/// Octets that are read from the left. What is not there ends the player.
struct Octets(&'static [u8]);

impl Octets {
    fn take(&mut self, count: usize) -> &'static [u8] {
        let (taken, left) = self.0.split_at_checked(count).expect("the vectors are not whole");
        self.0 = left;
        taken
    }

    fn array<const N: usize>(&mut self) -> [u8; N] {
        self.take(N).try_into().expect("so many were taken")
    }

    fn octet(&mut self) -> u8 {
        self.array::<1>()[0]
    }

    fn number(&mut self) -> u16 {
        u16::from_be_bytes(self.array())
    }

    fn long(&mut self) -> u32 {
        u32::from_be_bytes(self.array())
    }

    fn time(&mut self) -> u64 {
        u64::from_be_bytes(self.array())
    }

    fn address(&mut self) -> Short {
        Short::new(self.number()).expect("an address of a node")
    }

    fn index(&mut self) -> KeyIndex {
        KeyIndex::new(self.octet()).expect("an index of a key")
    }

    fn cost(&mut self) -> LinkCost {
        LinkCost::new(self.octet()).expect("a cost")
    }

    fn key(&mut self) -> Key {
        Key(self.array())
    }

    fn eui(&mut self) -> Eui {
        Eui(self.array())
    }

    /// The kind of the next item, and its octets.
    fn item(&mut self) -> (u8, Octets) {
        let kind = self.octet();
        let count = self.number();
        (kind, Octets(self.take(usize::from(count))))
    }
}

/// What is still to be played, and the store of the node that is played now.
struct Bench {
    left: Octets,
    records: [Option<(u32, Record)>; 64],
    is_coordinator: bool,
    differs: bool,
}

impl Bench {
    /// Compares the next item of the answer with a kind and its octets. After a difference nothing more of this answer is compared.
    fn expect(&mut self, kind: u8, parts: &[&[u8]]) {
        if self.differs {
            return;
        }
        let here = self.left.0;
        let (found, octets) = self.left.item();
        let count: usize = parts.iter().map(|it| it.len()).sum();
        let same = octets.0.iter().eq(parts.iter().copied().flatten());
        if found != kind || octets.0.len() != count || !same {
            self.differs = true;
            self.left = Octets(here);
        }
    }

    fn expect_frames(&mut self, out: &Out) {
        for frame in out.frames.frames() {
            if self.is_coordinator {
                self.expect(GIVEN_OUT, &[frame.octets.octets()]);
            } else {
                self.expect(SENT, &[&frame.note.to_be_bytes(), frame.octets.octets()]);
            }
        }
    }

    fn place(&mut self, slot: u32) -> Option<&mut Option<(u32, Record)>> {
        self.records.iter_mut().find(|it| !matches!(it, Some(it) if it.0 != slot))
    }
}

/// A store whose puts are compared.
struct Store<'a>(&'a RefCell<Bench>);

impl Keeper for Store<'_> {
    fn get(&self, slot: u32) -> Option<Record> {
        self.0.borrow().records.iter().flatten().find(|it| it.0 == slot).map(|it| it.1.copied())
    }

    fn put(&mut self, slot: u32, octets: &Record) -> Result<(), Failed> {
        let mut bench = self.0.borrow_mut();
        *bench.place(slot).ok_or(Failed)? = Some((slot, octets.copied()));
        if !bench.is_coordinator {
            bench.expect(RECORD, &[&slot.to_be_bytes(), octets.octets()]);
        }
        Ok(())
    }
}

/// The name of a refusal: that of the innermost variant.
struct Name {
    octets: [u8; 48],
    used: usize,
}

impl Write for Name {
    fn write_str(&mut self, text: &str) -> core::fmt::Result {
        for octet in text.bytes() {
            match octet {
                b'(' => self.used = 0,
                b')' => {}
                _ => {
                    *self.octets.get_mut(self.used).ok_or(core::fmt::Error)? = octet;
                    self.used += 1;
                }
            }
        }
        Ok(())
    }
}

fn named(reason: impl Debug) -> Name {
    let mut name = Name { octets: [0; 48], used: 0 };
    write!(name, "{reason:?}").expect("a name is short");
    name
}

enum Node<'a> {
    Meter(Meter<Store<'a>>),
    Coordinator(Coordinator<Store<'a>>),
}

/// A node with what it is lent.
struct Lodged<'a> {
    node: Node<'a>,
    out: Out,
    buffers: Buffers,
}

impl<'a> Lodged<'a> {
    fn open(bench: &'a RefCell<Bench>, kind: u8, mut octets: Octets) -> Result<Lodged<'a>, Name> {
        let (eui, key) = (octets.eui(), octets.key());
        let out = Out::new(Global).expect("memory for a node");
        let node = if kind == OPEN {
            Node::Meter(Meter::open(Global, Store(bench), eui, key).map_err(|it| named(it.0))?)
        } else {
            Node::Coordinator(Coordinator::open(Global, Store(bench), eui, &key).map_err(|it| named(it.0))?)
        };
        Ok(Lodged { node, out, buffers: Buffers::new() })
    }

    /// Compares the frames that go out.
    fn sent(&mut self, bench: &RefCell<Bench>) {
        bench.borrow_mut().expect_frames(&self.out);
        self.out.clear();
    }

    /// Takes a frame that came, and compares its frames, then that the meter has joined, then what is handed up.
    fn hear(&mut self, bench: &RefCell<Bench>, mut octets: Octets) -> Result<(), Name> {
        let came = Came { cost: octets.cost(), note: octets.long(), time: octets.time() };
        let (heard, took) = match &mut self.node {
            Node::Meter(meter) => {
                let heard = meter.receive(octets.0, came, &mut self.buffers, &mut self.out).map_err(named)?;
                let took = if matches!(heard, MeterHeard::Took(_)) { meter.address() } else { None };
                (if let MeterHeard::Station(heard) = heard { Some(heard) } else { None }, took)
            }
            Node::Coordinator(coordinator) => {
                let heard = coordinator.receive(octets.0, came, &mut self.buffers, &mut self.out).map_err(named)?;
                (if let CoordinatorHeard::Station(heard) = heard { Some(heard) } else { None }, None)
            }
        };
        let mut bench = bench.borrow_mut();
        bench.expect_frames(&self.out);
        if let Some(address) = took {
            bench.expect(JOINED, &[&address.number().to_be_bytes()]);
        }
        if let Some(Heard::Up { from, note, octets }) = heard {
            bench.expect(UP, &[&from.number().to_be_bytes(), &note.to_be_bytes(), octets.octets()]);
        }
        self.out.clear();
        Ok(())
    }

    /// Makes a call that both kinds have.
    fn call(&mut self, bench: &RefCell<Bench>, kind: u8, mut octets: Octets) -> Result<(), Name> {
        if kind == FRAME {
            return self.hear(bench, octets);
        }
        if kind == TIME {
            match &mut self.node {
                Node::Meter(meter) => meter.tick(octets.time()),
                Node::Coordinator(coordinator) => coordinator.tick(octets.time()),
            }
            return Ok(());
        }
        if kind == RANDOM {
            let value = RandomOctets(octets.array());
            return match &mut self.node {
                Node::Meter(meter) => meter.give_random(value).map_err(named),
                Node::Coordinator(coordinator) => coordinator.give_random(value).map_err(named),
            };
        }
        let station = match &mut self.node {
            Node::Meter(meter) => meter.station(),
            Node::Coordinator(coordinator) => coordinator.station(),
        };
        match kind {
            NEIGHBOUR => station.preset_near(octets.address(), octets.cost(), octets.time()).map_err(named),
            BROKE => station.broke(octets.address()).map_err(named),
            SEND => {
                let (to, note, now) = (octets.address(), octets.long(), octets.time());
                station.send(to, octets.0, note, now, &mut self.out).map_err(named)?;
                self.sent(bench);
                Ok(())
            }
            _ => match &mut self.node {
                Node::Meter(_) => self.call_meter(bench, kind, octets),
                Node::Coordinator(_) => self.call_coordinator(bench, kind, octets),
            },
        }
    }

    fn call_meter(&mut self, bench: &RefCell<Bench>, kind: u8, mut octets: Octets) -> Result<(), Name> {
        let Node::Meter(meter) = &mut self.node else { unreachable!() };
        match kind {
            GRANT => {
                let (address, active, key) = (octets.address(), octets.index(), octets.key());
                let keys = if active.number() == 0 { [Some(key), None] } else { [None, Some(key)] };
                meter.provision(&Grant { address, active, keys }).map_err(named)
            }
            JOIN => {
                meter.join(octets.address(), octets.time(), &mut self.out).map_err(named)?;
                self.sent(bench);
                Ok(())
            }
            LEAVE => meter.leave().map_err(named),
            _ => panic!("no call of a meter"),
        }
    }

    fn call_coordinator(&mut self, bench: &RefCell<Bench>, kind: u8, mut octets: Octets) -> Result<(), Name> {
        let Node::Coordinator(coordinator) = &mut self.node else { unreachable!() };
        match kind {
            ALLOW => {
                let address = coordinator.allow(octets.eui(), &octets.key()).map_err(named)?;
                bench.borrow_mut().expect(ALLOWED, &[&address.number().to_be_bytes()]);
            }
            DEPOT => {
                let grant = coordinator.depot(octets.eui(), &octets.key()).map_err(named)?;
                let key = grant.key(grant.active).expect("a grant has a key at its active index");
                bench.borrow_mut().expect(GRANTED, &[&grant.address.number().to_be_bytes(), &[grant.active.number()], &key.0]);
            }
            REKEY => coordinator.rekey(octets.index(), &octets.key()).map_err(named)?,
            CHALLENGE => coordinator.challenge(octets.eui(), octets.time(), &mut self.out).map_err(named)?,
            ACTIVATE => coordinator.activate(octets.eui(), octets.index(), octets.time(), &mut self.out).map_err(named)?,
            ACTIVATE_SELF => coordinator.activate_self(octets.index()).map_err(named)?,
            KICK => coordinator.kick(octets.eui(), &mut self.out).map_err(named)?,
            _ => panic!("no call of a coordinator"),
        }
        self.sent(bench);
        Ok(())
    }
}

/// How many frames, nodes and calls were played, and how many of them are wrong.
#[derive(Default)]
struct Counts {
    frames: u16,
    nodes: u16,
    calls: u32,
    wrong: u32,
}

/// Whether a frame opens, is read and is sealed again as it is, and is refused where a bit has changed.
fn is_frame(mut octets: Octets) -> bool {
    let key = octets.take(16);
    let count = usize::from(octets.number());
    let (payload, frame) = (octets.take(count), octets.0);
    let mut head = FramesHead { device: 0, counter: 0, pan: 0, to: 0, from: 0, kind: 0, version: 0, ack: 0, seq: 0, index: 0 };
    let (mut made, mut text, mut written, mut place) = ([0; 400], [0; 400], 0, 0);
    if frames_open(key, frame, &mut text, &mut written) != 0 || &text[..written] != payload || frames_read(frame, &mut head, &mut place) != 0 {
        return false;
    }
    if frames_seal(key, &head, payload, &mut made, &mut written) != 0 || &made[..written] != frame {
        return false;
    }
    made[frame.len() - 1] ^= 1;
    frames_open(key, &made[..frame.len()], &mut text, &mut written) == Refusal::Tag.number()
}

/// Whether the store has just the records that come next, so many.
fn has_stored(bench: &mut Bench, count: u16) -> bool {
    let mut same = bench.records.iter().flatten().count() == usize::from(count);
    for _ in 0..count {
        let (kind, mut octets) = bench.left.item();
        let slot = octets.long();
        same &= kind == RECORD && bench.records.iter().flatten().any(|it| it.0 == slot && it.1.octets() == octets.0);
    }
    same
}

/// Makes a call, and says whether its answer is the one that follows it.
fn is_answered<'a>(lodged: &mut Option<Lodged<'a>>, bench: &'a RefCell<Bench>, kind: u8, octets: Octets) -> bool {
    bench.borrow_mut().differs = false;
    let ended = if kind == OPEN || kind == OPEN_COORDINATOR {
        Lodged::open(bench, kind, octets).map(|it| *lodged = Some(it))
    } else {
        lodged.as_mut().expect("a node is open").call(bench, kind, octets)
    };
    let mut bench = bench.borrow_mut();
    let mut answer = bench.left.item();
    while answer.0 != ENDED {
        bench.differs = true;
        answer = bench.left.item();
    }
    let (status, _number, name) = (answer.1.octet(), answer.1.octet(), answer.1.0);
    !bench.differs
        && match ended {
            Ok(()) => status == 0,
            Err(found) => status == 1 && &found.octets[..found.used] == name,
        }
}

fn play(counts: &mut Counts) {
    let bench = RefCell::new(Bench { left: Octets(VECTORS), records: [const { None }; 64], is_coordinator: false, differs: false });
    let (mut lodged, mut example, mut call, mut is_whole) = (None, "", 0, false);
    while !bench.borrow().left.0.is_empty() {
        let (kind, mut octets) = bench.borrow_mut().left.item();
        let right = match kind {
            SEALED => {
                counts.frames += 1;
                is_frame(octets)
            }
            NODE => {
                counts.nodes += 1;
                call = 0;
                let mut bench = bench.borrow_mut();
                bench.is_coordinator = octets.octet() == 1;
                bench.records = [const { None }; 64];
                example = core::str::from_utf8(octets.0).unwrap_or_default();
                true
            }
            STARTS => {
                lodged = None;
                forget();
                true
            }
            STORED => has_stored(&mut bench.borrow_mut(), octets.number()),
            LAST => {
                is_whole = (octets.number(), octets.number(), octets.long()) == (counts.frames, counts.nodes, counts.calls);
                is_whole
            }
            _ => {
                counts.calls += 1;
                call += 1;
                is_answered(&mut lodged, &bench, kind, octets)
            }
        };
        if !right {
            counts.wrong += 1;
            let node = if bench.borrow().is_coordinator { "coordinator" } else { "meter" };
            let _ = writeln!(Console, "wrong: {example}, {node}, call {call}, item {kind:02x}");
        }
    }
    counts.wrong += u32::from(!is_whole);
}

fn run() {
    let mut counts = Counts::default();
    play(&mut counts);
    let Counts { frames, nodes, calls, wrong } = counts;
    let _ = writeln!(Console, "player: {frames} frames, {calls} calls of {nodes} nodes, {wrong} wrong");
    if wrong > 0 {
        panic!("what is proved is not what is built here");
    }
}

#[cfg(not(target_os = "none"))]
fn main() {
    run();
}

#[cfg(target_os = "none")]
#[unsafe(no_mangle)]
extern "C" fn program() {
    run();
}
