//! A call that its contract does not allow: it stops, with its name and the clause, and does not go on with a wrong answer.
#![cfg_attr(target_os = "none", no_std, no_main)]

#[cfg(target_os = "none")]
#[path = "../bare.rs"]
mod bare;

use coordinator::Coordinator;
use firmware::Flash;
use plc_base::{Eui, Key, KeyIndex};
use rattle_std::alloc::Global;

// A coordinator takes about 80 KB, most of it for its book.
#[cfg(target_os = "none")]
#[global_allocator]
static HEAP: bare::Heap<10232> = bare::Heap::new();

fn run() {
    if let Ok(mut coordinator) = Coordinator::open(Global, Flash::new(), Eui([1; 8]), &Key([2; 16])) {
        // Without the address 0000 it is no coordinator.
        let _ = coordinator.station().leave();
        let _ = coordinator.rekey(KeyIndex::second(), &Key([3; 16]));
    }
}

#[cfg(not(target_os = "none"))]
fn main() {
    run();
}

#[cfg(target_os = "none")]
#[unsafe(no_mangle)]
extern "C" fn program() {
    run();
}
