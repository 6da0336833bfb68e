//! The numbers of meter.h.
use core::ffi::c_int;
use node_rules::{CoordinatorHeard, CoordinatorRefusal, Heard, MeterHeard};

/// How a call ended (`enum meter_status`).
pub const DONE: c_int = 0;
pub const REFUSED: c_int = 1;
pub const HALTED: c_int = 2;
pub const BAD_STORE: c_int = 3;
pub const MALFORMED: c_int = 4;
pub const MEMORY: c_int = 5;
pub const STORE_FAILED: c_int = 6;

/// Which refusal it was: the numbers of `meter_host`, by its own source.
#[path = "../../crates/meter_host/src/refusals.rs"]
mod refusals;
pub use refusals::Refusal;

impl Refusal for CoordinatorRefusal {
    fn number(&self) -> u8 {
        match self {
            CoordinatorRefusal::Halted => 1,
            CoordinatorRefusal::MetersFull => 2,
            CoordinatorRefusal::NotAllowed => 3,
            CoordinatorRefusal::IndexActive => 4,
            CoordinatorRefusal::NotHeld => 5,
            CoordinatorRefusal::NotIssued => 6,
            CoordinatorRefusal::SessionsFull => 7,
            CoordinatorRefusal::NoRandom => 8,
            CoordinatorRefusal::WaitingFull => 9,
            CoordinatorRefusal::SeqSpent => 10,
            CoordinatorRefusal::CounterSpent => 11,
            CoordinatorRefusal::Store => 12,
        }
    }
}

/// What was heard (`enum meter_heard`).
pub const UP: c_int = 1;
pub const REPLIED: c_int = 10;
pub const TOOK: c_int = 11;
pub const CHALLENGED: c_int = 16;

fn of_station(heard: &Heard<'_>) -> c_int {
    match heard {
        Heard::Up { .. } => UP,
        Heard::Held => 2,
        Heard::Relayed => 3,
        Heard::Answered => 4,
        Heard::Learned => 5,
        Heard::Broken => 6,
        Heard::Reported => 7,
        Heard::Joining { .. } => 8,
        Heard::Local { .. } => 8,
    }
}

pub fn of_meter(heard: &MeterHeard<'_>) -> c_int {
    match heard {
        MeterHeard::Station(heard) => of_station(heard),
        MeterHeard::Carried => 9,
        MeterHeard::Replied => REPLIED,
        MeterHeard::Took(_) => TOOK,
        MeterHeard::Noted => 12,
        MeterHeard::Declined => 13,
        MeterHeard::Left => 14,
        MeterHeard::Activated => 15,
    }
}

pub fn of_coordinator(heard: &CoordinatorHeard<'_>) -> c_int {
    match heard {
        CoordinatorHeard::Station(heard) => of_station(heard),
        CoordinatorHeard::Challenged => CHALLENGED,
        CoordinatorHeard::Keyed { .. } => 17,
        CoordinatorHeard::Done { .. } => 18,
        CoordinatorHeard::Declined => 13,
    }
}
