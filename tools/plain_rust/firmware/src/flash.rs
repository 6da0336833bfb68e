//! The store: a stand-in for flash.
use plc_base::{Failed, Keeper, Record};

/// Records in memory, so that they do not outlast a loss of power: a stand-in. Yours writes the new record whole before the old one stops to count, and
/// answers `Failed` where it cannot; after that either of the two may be there, and never a mixture.
pub struct Flash {
    records: [Option<(u32, Record)>; 24],
}

impl Flash {
    /// With no record.
    pub const fn new() -> Flash {
        Flash { records: [const { None }; 24] }
    }
}

impl Default for Flash {
    fn default() -> Flash {
        Flash::new()
    }
}

impl Keeper for Flash {
    fn get(&self, slot: u32) -> Option<Record> {
        self.records.iter().flatten().find(|it| it.0 == slot).map(|it| it.1.copied())
    }

    fn put(&mut self, slot: u32, octets: &Record) -> Result<(), Failed> {
        for place in self.records.iter_mut() {
            if place.as_ref().is_none_or(|it| it.0 == slot) {
                *place = Some((slot, octets.copied()));
                return Ok(());
            }
        }
        Err(Failed)
    }
}
