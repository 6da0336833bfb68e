//! `FramKeeper` over a hostile FRAM: losses of power in each write, in openings too, and bits that change over the years.
mod common;

use common::chance::{Chance, runs};
use common::judge::Judge;
use keepers::fram::{Fram, FramKeeper, OpenFault, size_of};
use plc_base::{Failed, Keeper, Record};
use std::cell::RefCell;
use std::rc::Rc;

/// Places of a store, which are the slots 1 to 6.
const PLACES: usize = 6;

/// What a write left of an octet in which power failed.
#[derive(Clone, Copy, PartialEq)]
enum Octet {
    Firm(u8),
    /// It reads as the one or the other.
    Weak(u8, u8),
    /// It reads as anything.
    Any,
}

struct Memory {
    octets: Vec<Octet>,
    chance: Chance,
    /// The write in which power fails, counted from 1 for the next one.
    cut: Option<u64>,
    writes: u64,
}

#[derive(Clone)]
struct Part(Rc<RefCell<Memory>>);

impl Part {
    fn new(seed: u64) -> Part {
        let octets = vec![Octet::Firm(0xFF); size_of(PLACES)];
        Part(Rc::new(RefCell::new(Memory { octets, chance: Chance(seed), cut: None, writes: 0 })))
    }

    fn cut(&self, nth: Option<u64>) {
        self.0.borrow_mut().cut = nth;
    }

    fn writes(&self) -> u64 {
        self.0.borrow().writes
    }

    fn open(&self) -> Result<FramKeeper<Part>, OpenFault> {
        FramKeeper::open(self.clone(), PLACES).map_err(|it| it.0)
    }

    fn format(&self) -> FramKeeper<Part> {
        FramKeeper::format(self.clone(), PLACES).map_err(|it| it.0).unwrap()
    }
}

impl Fram for Part {
    fn size(&self) -> usize {
        self.0.borrow().octets.len()
    }

    fn read(&self, at: usize, octets: &mut [u8]) {
        let Memory { octets: all, chance, .. } = &mut *self.0.borrow_mut();
        for (to, from) in octets.iter_mut().zip(&all[at..]) {
            *to = match *from {
                Octet::Firm(octet) => octet,
                Octet::Weak(old, new) => [old, new][chance.below(2) as usize],
                Octet::Any => chance.number() as u8,
            };
        }
    }

    fn write(&mut self, at: usize, octets: &[u8]) -> Result<(), Failed> {
        let memory = &mut *self.0.borrow_mut();
        memory.writes += 1;
        let is_cut = memory.cut == Some(1);
        memory.cut = memory.cut.map(|it| it.saturating_sub(1)).filter(|it| *it > 0);
        // Octets are written in order, or as the part likes; few are torn, or many.
        let [is_ordered, many] = [memory.chance.below(2) == 0, memory.chance.below(2) == 0];
        let end = memory.chance.below(octets.len() as u64 + 1) as usize;
        for (place, octet) in octets.iter().enumerate() {
            let old = if let Octet::Firm(old) = memory.octets[at + place] { old } else { memory.chance.number() as u8 };
            memory.octets[at + place] = match memory.chance.below(4) {
                _ if !is_cut || memory.octets[at + place] == Octet::Firm(*octet) => Octet::Firm(*octet),
                _ if is_ordered && place < end => Octet::Firm(*octet),
                0 | 1 if is_ordered && place == end || many => Octet::Weak(old, *octet),
                2 if is_ordered && place == end || many => Octet::Any,
                it if !is_ordered && it < 2 => Octet::Firm(*octet),
                _ => memory.octets[at + place],
            };
        }
        if is_cut { Err(Failed) } else { Ok(()) }
    }
}

#[test]
fn power_fails_in_each_write_and_each_record_is_the_old_or_the_new_one() {
    let (mut puts, mut openings) = (0, 0);
    for seed in 0..runs(150) {
        let mut chance = Chance(seed);
        let part = Part::new(seed);
        let mut keeper = part.format();
        let mut judge = Judge::default();
        for session in 0..40 {
            part.cut(Some(1 + chance.below(12)));
            while judge.put(&mut keeper, 1 + chance.below(PLACES as u64) as u32, chance.octets()) {
                puts += 1;
            }
            for again in 0..1 + chance.below(3) {
                keeper = loop {
                    part.cut((chance.below(2) == 0).then(|| 1 + chance.below(3)));
                    openings += 1;
                    match part.open() {
                        Ok(keeper) => break keeper,
                        Err(fault) => assert_eq!(fault, OpenFault::Fram, "seed {seed}, session {session}"),
                    }
                };
                judge.opened(&keeper, PLACES as u32, &format!("seed {seed}, session {session}, opening {again}"));
            }
        }
    }
    println!("FRAM: {puts} puts, {openings} openings");
}

#[test]
fn an_opening_of_a_settled_store_writes_nothing() {
    let part = Part::new(1);
    let mut keeper = part.format();
    keeper.put(3, &Record::from_octets(&[7; 64])).unwrap();
    let writes = part.writes();
    assert_eq!(part.open().unwrap().get(3).unwrap().octets(), [7; 64]);
    assert_eq!(part.writes(), writes);
}

#[test]
fn a_record_that_was_replaced_is_gone() {
    let part = Part::new(1);
    let mut keeper = part.format();
    keeper.put(3, &Record::from_octets(&[0x5A; 40])).unwrap();
    keeper.put(3, &Record::from_octets(&[])).unwrap();
    assert!(!part.0.borrow().octets.contains(&Octet::Firm(0x5A)));
    assert_eq!(keeper.get(3).unwrap().octets(), []);
}

#[test]
fn decay_is_seen_or_does_not_matter() {
    let (mut right, mut decayed, mut none) = (0, 0, 0);
    for seed in 0..runs(2_000) {
        let mut chance = Chance(seed);
        let part = Part::new(seed);
        let mut keeper = part.format();
        let mut judge = Judge::default();
        for _ in 0..20 {
            assert!(judge.put(&mut keeper, 1 + chance.below(PLACES as u64) as u32, chance.octets()));
        }
        for _ in 0..1 + chance.below(3) {
            let octets = &mut part.0.borrow_mut().octets;
            let at = chance.below(octets.len() as u64) as usize;
            let Octet::Firm(octet) = octets[at] else { panic!("{at} is torn") };
            octets[at] = Octet::Firm(octet ^ 1 << chance.below(8));
        }
        match part.open() {
            Ok(keeper) => {
                judge.opened(&keeper, PLACES as u32, &format!("seed {seed}"));
                right += 1;
            }
            Err(OpenFault::Decayed) => decayed += 1,
            Err(OpenFault::NoStore) => none += 1,
            Err(fault) => panic!("{fault:?}"),
        }
    }
    println!("FRAM, decay: right {right}, Decayed {decayed}, no store {none}; older or wrong 0");
}

#[test]
fn what_is_no_store_is_left_alone() {
    let part = Part::new(1);
    assert_eq!(part.open().err(), Some(OpenFault::NoStore));
    assert!(matches!(FramKeeper::format(part.clone(), PLACES + 1), Err((OpenFault::Small, _))));
    assert!(matches!(FramKeeper::open(part.clone(), PLACES + 1), Err((OpenFault::Small, _))));
    assert_eq!(part.writes(), 0);
    let mut keeper = part.format();
    assert!(keeper.put(0x0100, &Record::from_octets(&[1])).is_err());
    assert!(keeper.put(7, &Record::from_octets(&[1])).is_err());
    assert!(keeper.put(1, &Record::from_octets(&[1])).is_ok());
}

#[test]
fn each_slot_of_a_coordinator_has_a_place_of_its_own() {
    let places = keepers::fram::OF_COORDINATOR;
    let part = Part::new(1);
    part.0.borrow_mut().octets.resize(size_of(places), Octet::Firm(0));
    let mut keeper = FramKeeper::format(part.clone(), places).map_err(|it| it.0).unwrap();
    let slots: Vec<u32> = (1..=6).chain(0x0100..=0x013F).chain(0x0200..=0x023F).chain(0x0300..=0x031F).chain(0x1000..=0x13E6).collect();
    assert_eq!(slots.len(), places);
    for slot in &slots {
        keeper.put(*slot, &Record::from_octets(&slot.to_be_bytes())).unwrap();
    }
    for slot in &slots {
        assert_eq!(keeper.get(*slot).unwrap().octets(), slot.to_be_bytes());
    }
}
