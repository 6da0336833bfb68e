//! Stations: 0003 is found by way of 0002, and then 0001 seals datagrams of 64 octets for it, of which 0002 accepts each and sends it on.
use crate::Done;
use plc_base::{DatagramBuf, Eui, FrameBuf, Grant, Key, KeyIndex, LinkCost, MemKeeper, Out, Short};
use plc_station::Station;
use rattle_std::alloc::Global;
use rattle_std::process::HostRuntime;
use std::error::Error;

const KEY: Key = Key([0, 1, 2, 3, 4, 5, 6, 7, 8, 9, 10, 11, 12, 13, 14, 15]);

/// Where a station writes what it hears.
struct Buffers {
    payload: FrameBuf,
    datagram: DatagramBuf,
}

/// A station and the frames of its last step.
struct Node {
    station: Station<MemKeeper>,
    out: Out,
}

impl Node {
    fn joined(alloc: Global, number: u8) -> Result<Node, Box<dyn Error>> {
        let address = Short::new(u16::from(number)).ok_or("no address")?;
        let keeper = MemKeeper::new(alloc).map_err(|_| "no memory for the store")?;
        let out = Out::new(alloc).map_err(|_| "no memory for the frames")?;
        let station = Station::open(alloc, keeper, Eui([0, 0, 0, 0, 0, 0, 0, number])).map_err(|_| "not opened")?;
        let mut node = Node { station, out };
        let grant = Grant { address, active: KeyIndex::first(), keys: [Some(KEY), None] };
        node.station.install(&grant).map_err(|_| "not joined")?;
        Ok(node)
    }

    // The octets of the last frame of the last step.
    fn frame(&self) -> &[u8] {
        self.out.frames.frames().last().map_or(&[], |frame| frame.octets.octets())
    }

    // Whether a datagram goes out, or its route is sought.
    #[inline(never)]
    fn sends(&mut self, to: Short, datagram: &[u8], note: u32) -> bool {
        self.station.send(to, datagram, note, 0, &mut self.out).is_ok()
    }

    // Whether a frame is taken in.
    #[inline(never)]
    fn takes(&mut self, frame: &[u8], cost: LinkCost, buffers: &mut Buffers) -> bool {
        let Ok(got) = self.station.accept(frame, &mut buffers.payload) else {
            return false;
        };
        self.station.hear(got, cost, 0, 0, &mut buffers.datagram, &mut self.out).is_ok()
    }
}

/// What was sent on.
struct Passed {
    frames: u32,
    octets: u64,
}

// Passes `count` datagrams for an address from one node to the next, which sends them on.
#[inline(never)]
fn pass(sender: &mut Node, relay: &mut Node, to: Short, cost: LinkCost, buffers: &mut Buffers, count: u32) -> Passed {
    let mut datagram = [0xa5; 64];
    let mut passed = Passed { frames: 0, octets: 0 };
    for number in 0..count {
        datagram[0] = (number % 256) as u8;
        if sender.sends(to, &datagram, number) && relay.takes(sender.frame(), cost, buffers) {
            passed.frames += 1;
            passed.octets += relay.frame().len() as u64;
        }
    }
    passed
}

// Whether the route of a datagram over the relay is found.
fn is_found([sender, relay, target]: &mut [Node; 3], to: Short, cost: LinkCost, buffers: &mut Buffers) -> bool {
    sender.sends(to, &[0xa5; 64], 0)
        && relay.takes(sender.frame(), cost, buffers)
        && target.takes(relay.frame(), cost, buffers)
        && relay.takes(target.frame(), cost, buffers)
        && sender.takes(relay.frame(), cost, buffers)
}

/// Passes `count` datagrams, and prints how many went on, and how many octets their frames had together.
pub fn run(rt: &HostRuntime, count: u32) -> Done {
    let cost = LinkCost::new(3).ok_or("no cost")?;
    let to = Short::new(3).ok_or("no address")?;
    let mut buffers = Buffers { payload: FrameBuf::new(), datagram: DatagramBuf::new() };
    let mut nodes = [Node::joined(rt.alloc(), 1)?, Node::joined(rt.alloc(), 2)?, Node::joined(rt.alloc(), 3)?];
    if !is_found(&mut nodes, to, cost, &mut buffers) {
        return Err("no route".into());
    }
    let [sender, relay, _] = &mut nodes;
    let passed = pass(sender, relay, to, cost, &mut buffers, count);
    println!("sent on {} {}", passed.frames, passed.octets);
    Ok(())
}
