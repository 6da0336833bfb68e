//! Two meters that talk, as in `examples/two_meters.script`: it prints the same flights. On a host it is a program; on bare metal it runs under
//! `qemu-arm -cpu max`, which has the two calls of Linux that `bare` prints with.
#![cfg_attr(target_os = "none", no_std, no_main)]

#[cfg(target_os = "none")]
#[path = "../bare.rs"]
mod bare;
#[cfg(target_os = "none")]
use bare::print;

use coordinator::Coordinator;
use firmware::{Driver, Flash, Modem};
use plc_base::{Eui, FrameBuf, Key, LinkCost, Short};
use rattle_std::alloc::Global;

// Three nodes take 19 KB each, the coordinator 61 KB more for its book, and two drivers 10 KB each for the frames of an `Out`.
#[cfg(target_os = "none")]
#[global_allocator]
static HEAP: bare::Heap<17656> = bare::Heap::new();

#[cfg(not(target_os = "none"))]
fn print(text: &str) {
    std::print!("{text}");
}

#[cfg(not(target_os = "none"))]
fn main() {
    run();
}

fn print_octets(octets: &[u8]) {
    for octet in octets {
        for half in [octet >> 4, octet & 15] {
            let digits = "0123456789abcdef";
            print(&digits[half as usize..][..1]);
        }
    }
    print("\n");
}

/// A line that has room for one frame.
struct Line {
    frame: FrameBuf,
}

impl Modem for Line {
    fn transmit(&mut self, frame: &[u8]) {
        print("fly 1 1 ");
        print_octets(frame);
        self.frame = FrameBuf::from_octets(frame);
    }

    fn take(&mut self, from: Short, datagram: &[u8]) {
        print(if from.number() == 1 { "up 2 1 " } else { "up 2 ? " });
        print_octets(datagram);
    }
}

fn octets(first: u8) -> [u8; 16] {
    core::array::from_fn(|i| first + i as u8)
}

fn run() {
    if talk().is_none() {
        print("something was refused\n");
    }
}

fn talk() -> Option<()> {
    // In the workshop: the coordinator gives each meter its address and the group key.
    let mut coordinator = Coordinator::open(Global, Flash::new(), Eui([0, 0, 0, 0, 0, 0, 0, 1]), &Key(octets(0))).ok()?;
    let (first, second) = (Eui([0, 0, 0, 0, 0, 0, 0, 2]), Eui([0, 0, 0, 0, 0, 0, 0, 3]));
    let first_grant = coordinator.depot(first, &Key(octets(0x10))).ok()?;
    let second_grant = coordinator.depot(second, &Key(octets(0x20))).ok()?;

    let mut sender = Driver::open(Flash::new(), first, Key(octets(0x10))).ok()?;
    let mut receiver = Driver::open(Flash::new(), second, Key(octets(0x20))).ok()?;
    sender.provision(&first_grant).ok()?;
    receiver.provision(&second_grant).ok()?;

    // They hear each other over a link of cost 3.
    let cost = LinkCost::new(3)?;
    sender.has_neighbour(second_grant.address, cost, 0).ok()?;
    receiver.has_neighbour(first_grant.address, cost, 0).ok()?;

    let mut line = Line { frame: FrameBuf::new() };
    sender.send(&mut line, second_grant.address, b"Hello", 0).ok()?;
    let frame = line.frame.copied();
    receiver.hear(&mut line, frame.octets(), cost, 0).ok()?;
    Some(())
}

#[cfg(target_os = "none")]
#[unsafe(no_mangle)]
extern "C" fn program() {
    run();
}
