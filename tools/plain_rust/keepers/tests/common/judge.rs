//! What a store has to answer after any puts and losses of power.
use plc_base::{Keeper, Record};
use std::collections::BTreeMap;

/// The records that a store has to hold, and the put of which it is open whether it counts.
#[derive(Default)]
pub struct Judge {
    held: BTreeMap<u32, Vec<u8>>,
    open: Option<(u32, Vec<u8>)>,
}

impl Judge {
    /// Puts a record, and says whether that went well. A put that failed is open until the store is opened again.
    pub fn put(&mut self, keeper: &mut impl Keeper, slot: u32, octets: Vec<u8>) -> bool {
        let is_put = keeper.put(slot, &Record::from_octets(&octets)).is_ok();
        if is_put {
            self.held.insert(slot, octets);
        } else {
            self.open = Some((slot, octets));
        }
        is_put
    }

    /// Stops where a slot up to this one has another record than it has to. Of an open put this opening decides, and all later ones have to say the same.
    pub fn opened(&mut self, keeper: &impl Keeper, last: u32, told: &str) {
        let open = self.open.take();
        for slot in 1..=last {
            let found = keeper.get(slot).map(|it| it.octets().to_vec());
            if let Some((at, octets)) = &open
                && *at == slot
                && found.as_ref() == Some(octets)
            {
                self.held.insert(slot, octets.clone());
            }
            assert_eq!(found.as_ref(), self.held.get(&slot), "slot {slot}: {told}");
        }
    }
}
