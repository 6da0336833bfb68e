//! `FlashKeeper` over a hostile flash: losses of power in programs and erases, at openings too, weak bits, and bits that change over the years.
mod common;

use common::chance::{Chance, runs};
use common::judge::Judge;
use flash_keeper::{Cut, FlashBank, FlashKeeper, ModelFlash, OpenFault, has_decayed, layout_of};
use plc_base::{Failed, Keeper, Record};
use rattle_std::alloc::Global;
use std::cell::{Cell, RefCell};
use std::rc::Rc;

/// Words before the first cell of a bank, and words of a cell.
const HEAD: usize = 4;
const CELL: usize = 12;

/// A bank that the test can reach while a keeper has it, whether power fails in its next erase, and how many words were read.
#[derive(Clone)]
struct Bank(Rc<RefCell<ModelFlash>>, Rc<Cell<bool>>, Rc<Cell<u64>>);

impl FlashBank for Bank {
    fn words(&self) -> usize {
        self.0.borrow().words()
    }

    fn read(&self, at: usize) -> u64 {
        self.2.set(self.2.get() + 1);
        self.0.borrow().read(at)
    }

    fn program(&mut self, at: usize, word: u64) -> Result<(), Failed> {
        self.0.borrow_mut().program(at, word)
    }

    fn erase(&mut self) -> Result<(), Failed> {
        if self.1.take() {
            self.0.borrow_mut().cut(1, Cut::Within);
        }
        self.0.borrow_mut().erase()
    }
}

/// Two banks, and the supply of both.
struct Chip {
    banks: [Bank; 2],
}

impl Chip {
    fn new(words: [usize; 2], seed: u64) -> Chip {
        let bank = |at: usize| {
            let flash = ModelFlash::new(Global, words[at], 2 * seed + at as u64).unwrap();
            Bank(Rc::new(RefCell::new(flash)), Rc::default(), Rc::default())
        };
        Chip { banks: [bank(0), bank(1)] }
    }

    /// With so many cells in each bank.
    fn of_cells(cells: usize, seed: u64) -> Chip {
        Chip::new([HEAD + CELL * cells; 2], seed)
    }

    /// For records of this many slots, of up to 64 octets each.
    fn format(&self, slots: usize) -> FlashKeeper<Bank> {
        FlashKeeper::format(self.banks[0].clone(), self.banks[1].clone(), 9 * slots, 1).map_err(|it| it.0).unwrap()
    }

    /// Power comes back, and fails in these operations of either bank, if any.
    fn start(&self, cuts: [Option<(u32, Cut)>; 2]) {
        for (bank, cut) in self.banks.iter().zip(cuts) {
            let (nth, how) = cut.unwrap_or((u32::MAX, Cut::Before));
            bank.0.borrow_mut().start();
            bank.0.borrow_mut().cut(nth, how);
        }
    }

    fn open(&self, is_swapped: bool) -> Result<FlashKeeper<Bank>, OpenFault> {
        let [first, second] = [usize::from(is_swapped), usize::from(!is_swapped)];
        FlashKeeper::open(self.banks[first].clone(), self.banks[second].clone()).map_err(|it| it.0)
    }

    fn erases(&self) -> u32 {
        self.banks.iter().map(|it| it.0.borrow().erases()).sum()
    }

    fn programs(&self) -> u32 {
        self.banks.iter().map(|it| it.0.borrow().programs()).sum()
    }

    /// How many words were read since this was asked last.
    fn reads(&self) -> u64 {
        self.banks.iter().map(|it| it.2.take()).sum()
    }

    fn most_programs(&self) -> u32 {
        self.banks.iter().map(|it| it.0.borrow().most_programs()).max().unwrap()
    }

    /// The bank that an opening takes.
    fn live(&self) -> usize {
        let [first, second] = [self.banks[0].read(1), self.banks[1].read(1)];
        let is_head = |at: usize| layout_of(&self.banks[at]).is_some();
        if is_head(0) && (!is_head(1) || first > second) { 0 } else { 1 }
    }

    /// Whether the head of a bank reads as one word at one start, and as another at a later one.
    fn has_weak_head(&self) -> bool {
        self.banks.iter().any(|bank| {
            let head = bank.read(0);
            (0..1_000).any(|_| {
                bank.0.borrow_mut().start();
                bank.read(0) != head
            })
        })
    }

    fn has_word(&self, word: u64) -> bool {
        self.banks.iter().any(|bank| (0..bank.words()).any(|at| bank.read(at) == word))
    }
}

/// A loss of power by chance in one of the next operations of one bank.
fn cut(chance: &mut Chance, within: u64) -> [Option<(u32, Cut)>; 2] {
    let how = match chance.below(8) {
        0 => Cut::Before,
        1 => Cut::After,
        _ => Cut::Within,
    };
    let nth = 1 + chance.below(within) as u32;
    if chance.below(2) == 0 { [Some((nth, how)), None] } else { [None, Some((nth, how))] }
}

/// Opens the store until it is open, over losses of power by chance. Counts the openings that found none.
fn opened(chip: &Chip, chance: &mut Chance, none: &mut u64) -> FlashKeeper<Bank> {
    let mut tries = 0;
    loop {
        tries += 1;
        let is_cut = tries < 10 && chance.below(3) > 0;
        chip.start(if is_cut { cut(chance, 12) } else { [None; 2] });
        match chip.open(chance.below(2) == 0) {
            Ok(keeper) => return keeper,
            Err(OpenFault::Flash) if is_cut => {}
            // Power failed twice in a row, each time in the word of a head: what each opening reads is drawn anew, until the next copy.
            Err(OpenFault::NoStore) if tries < 1_000 && (tries > 1 || chip.has_weak_head()) => *none += 1,
            Err(fault) => panic!("{fault:?} at try {tries}"),
        }
    }
}

/// Reopens a keeper in its own banks until that goes well, over losses of power by chance.
fn reopen(chip: &Chip, keeper: &mut FlashKeeper<Bank>, chance: &mut Chance) {
    let mut tries = 0;
    loop {
        tries += 1;
        let is_cut = tries < 10 && chance.below(3) > 0;
        chip.start(if is_cut { cut(chance, 12) } else { [None; 2] });
        match keeper.reopen() {
            Ok(()) => return,
            Err(OpenFault::Flash) if is_cut => {}
            Err(fault) => panic!("{fault:?} at try {tries}"),
        }
    }
}

#[test]
fn a_failed_keeper_is_reopened_in_its_own_banks() {
    let (mut puts, mut reopened, mut none) = (0, 0, 0);
    for seed in 0..runs(60) {
        let mut chance = Chance(seed);
        let slots = 1 + chance.below(5) as u32;
        let chip = Chip::of_cells(2 * slots as usize + chance.below(8) as usize, seed);
        let mut keeper = chip.format(slots as usize);
        let mut judge = Judge::default();
        for session in 0..60 {
            let within = [4, 14, 60, 200][chance.below(4) as usize];
            chip.start(cut(&mut chance, within));
            while judge.put(&mut keeper, 1 + chance.below(u64::from(slots)) as u32, chance.octets()) {
                puts += 1;
            }
            reopen(&chip, &mut keeper, &mut chance);
            reopened += 1;
            judge.opened(&keeper, slots, &format!("seed {seed}, session {session}, reopened"));
            chip.start([None; 2]);
            assert!(judge.put(&mut keeper, 1, chance.octets()), "seed {seed}, session {session}");
            // A start finds what the keeper held.
            if chance.below(2) == 0 {
                keeper = opened(&chip, &mut chance, &mut none);
                judge.opened(&keeper, slots, &format!("seed {seed}, session {session}, opened"));
            }
        }
    }
    println!("{puts} puts, {reopened} reopened keepers, openings that found no store {none}");
}

#[test]
fn power_fails_anywhere_and_each_record_is_the_old_or_the_new_one() {
    let (mut puts, mut none, mut erases) = (0, 0, 0);
    for seed in 0..runs(60) {
        let mut chance = Chance(seed);
        let slots = 1 + chance.below(5) as u32;
        let chip = Chip::of_cells(2 * slots as usize + chance.below(8) as usize, seed);
        let mut keeper = chip.format(slots as usize);
        let mut judge = Judge::default();
        for session in 0..60 {
            let within = [4, 14, 60, 200][chance.below(4) as usize];
            chip.start(cut(&mut chance, within));
            while judge.put(&mut keeper, 1 + chance.below(u64::from(slots)) as u32, chance.octets()) {
                puts += 1;
            }
            for again in 0..1 + chance.below(3) {
                keeper = opened(&chip, &mut chance, &mut none);
                judge.opened(&keeper, slots, &format!("seed {seed}, session {session}, opening {again}"));
            }
        }
        erases += chip.erases();
    }
    println!("{puts} puts, {erases} erases, openings that found no store {none}");
}

#[test]
fn an_erase_that_is_cut_short_brings_back_no_older_store() {
    for seed in 0..runs(400) {
        let mut chance = Chance(seed);
        let chip = Chip::of_cells(8, seed);
        let mut keeper = chip.format(1);
        let mut judge = Judge::default();
        // A counter that only rises, over some copies.
        let count = 10 + chance.below(40);
        for value in 0..count {
            assert!(judge.put(&mut keeper, 3, value.to_be_bytes().to_vec()));
        }
        let spare = 1 - chip.live();
        chip.banks[spare].1.set(true);
        let mut value = count;
        while judge.put(&mut keeper, 3, value.to_be_bytes().to_vec()) {
            value += 1;
        }
        assert!(!chip.banks[spare].1.get());
        for is_swapped in [false, true, false, true] {
            chip.start([None; 2]);
            judge.opened(&chip.open(is_swapped).unwrap(), 3, &format!("seed {seed}"));
        }
    }
}

#[test]
fn a_changed_bit_of_a_head_brings_back_no_older_store() {
    let (mut found, mut none) = (0, 0);
    for is_live in [true, false] {
        for at in 0..HEAD {
            for bit in 0..64 {
                let chip = Chip::of_cells(20, bit);
                let mut keeper = chip.format(1);
                for value in 0..70u64 {
                    keeper.put(2, &Record::from_octets(&value.to_be_bytes())).unwrap();
                }
                let which = if is_live { chip.live() } else { 1 - chip.live() };
                chip.banks[which].0.borrow_mut().decay(at, 1 << bit);
                match chip.open(bit % 2 == 0) {
                    Ok(keeper) => {
                        assert_eq!(keeper.get(2).unwrap().octets(), 69u64.to_be_bytes(), "live {is_live}, word {at}, bit {bit}");
                        found += 1;
                    }
                    Err(fault) => {
                        // The fourth word of a bank is the number of the records of its front, with a check.
                        assert_eq!(fault, if at == 3 { OpenFault::Decayed } else { OpenFault::NoStore });
                        none += 1;
                    }
                }
            }
        }
    }
    println!("changed bits of heads: the records {found}, no store {none}");
}

#[test]
fn decay_is_seen_or_does_not_matter() {
    let (mut right, mut decayed, mut none, mut failed) = (0, 0, 0, 0);
    for seed in 0..runs(1_500) {
        let mut chance = Chance(seed);
        let chip = Chip::of_cells(60, seed);
        let mut keeper = chip.format(20);
        let mut judge = Judge::default();
        for _ in 0..60 + chance.below(60) {
            assert!(judge.put(&mut keeper, 1 + chance.below(20) as u32, chance.octets()));
        }
        let live = chip.live();
        // One to four bits, of any word, or of words of one cell.
        let cell = HEAD + CELL * chance.below(40) as usize;
        let is_near = chance.below(2) == 0;
        let bits = 1 + chance.below(4);
        for _ in 0..bits {
            let at = if is_near { cell + chance.below(CELL as u64) as usize } else { chance.below(chip.banks[0].words() as u64) as usize };
            chip.banks[live].0.borrow_mut().decay(at, 1 << chance.below(64));
        }
        let is_seen = has_decayed(keeper.live());
        let opened = chip.open(chance.below(2) == 0);
        // Changed bits of a head may hide the bank from an opening.
        assert!(matches!(opened, Err(OpenFault::Decayed)) == is_seen || matches!(opened, Err(OpenFault::NoStore)), "seed {seed}");
        match opened {
            Ok(mut keeper) => {
                judge.opened(&keeper, 20, &format!("seed {seed}"));
                // A put that meets a word which is not erased any more fails, and the next opening passes over that cell.
                let before = failed;
                for put in 0..70 {
                    if !judge.put(&mut keeper, 1 + put % 3, vec![1; 64]) {
                        failed += 1;
                        keeper = chip.open(false).unwrap();
                        judge.opened(&keeper, 20, &format!("seed {seed}, put {put}"));
                    }
                }
                assert!(failed - before <= bits, "seed {seed}");
                right += 1;
            }
            Err(OpenFault::Decayed) => decayed += 1,
            Err(OpenFault::NoStore) => none += 1,
            Err(fault) => panic!("{fault:?}, seed {seed}"),
        }
    }
    println!("decay: right {right}, Decayed {decayed}, no store {none}; older or wrong 0; later puts that failed once {failed}");
}

#[test]
fn a_thousand_starts_at_a_bouncing_supply_erase_hardly_ever() {
    let (mut erases, mut openings, mut copied) = (0, 0, 0);
    for at in 1..=11 {
        for seed in 0..runs(1) {
            let mut chance = Chance(100 * seed + u64::from(at));
            let chip = Chip::of_cells(341, 100 * seed + u64::from(at));
            let mut keeper = chip.format(1);
            let mut judge = Judge::default();
            for slot in 1..=100 {
                assert!(judge.put(&mut keeper, slot, vec![5; 6]));
            }
            chip.start([Some((at, Cut::Within)), None]);
            assert!(!judge.put(&mut keeper, 1, vec![9; 64]));
            let before = chip.erases();
            let mut is_judged = false;
            for boot in 0..1_000 {
                // Power lasts for so few operations that some openings do not end.
                chip.start([Some((1 + boot % 6, Cut::Within)), Some((1 + chance.below(20) as u32, Cut::Within))]);
                match chip.open(boot % 2 == 0) {
                    Ok(keeper) => {
                        openings += 1;
                        // All slots at first, and then that of the put.
                        judge.opened(&keeper, if is_judged { 1 } else { 100 }, &format!("cut at {at}, boot {boot}"));
                        is_judged = true;
                    }
                    Err(OpenFault::Flash) => {}
                    Err(fault) => panic!("{fault:?}, cut at {at}, boot {boot}"),
                }
            }
            let more = chip.erases() - before;
            erases += more;
            copied += u64::from(more > 0);
        }
    }
    println!("bouncing boots: {} of 1,000 starts each, {openings} opened, {erases} erases in {copied} of them", 11 * runs(1));
    assert!(copied * 10 <= 11 * runs(1), "{erases} erases, in {copied}");
}

#[test]
fn banks_of_different_sizes_are_left_alone() {
    for (first, second) in [(28, 40), (40, 28), (4_096, 28)] {
        let chip = Chip::new([first, second], 1);
        assert!(matches!(FlashKeeper::format(chip.banks[0].clone(), chip.banks[1].clone(), 9, 1), Err((OpenFault::Sizes, ..))));
        assert!(matches!(chip.open(false), Err(OpenFault::Sizes)));
        assert_eq!((chip.programs(), chip.erases()), (0, 0));
    }
}

#[test]
fn a_purge_leaves_no_key() {
    const KEY: u64 = 0x5A5A_5A5A_5A5A_5A5A;
    for nth in 0..runs(150) as u32 {
        let chip = Chip::of_cells(33, u64::from(nth));
        let mut keeper = chip.format(10);
        let mut judge = Judge::default();
        for slot in 1..=9 {
            judge.put(&mut keeper, slot, vec![slot as u8; 20]);
        }
        judge.put(&mut keeper, 10, vec![0x5A; 64]);
        judge.put(&mut keeper, 10, vec![0; 38]);
        assert!(chip.has_word(KEY));
        let cut = (nth > 0).then_some((1 + nth / 2, Cut::Within));
        chip.start(if nth % 2 == 0 { [cut, None] } else { [None, cut] });
        if keeper.purge().is_ok() {
            assert!(!chip.has_word(KEY), "cut {cut:?}");
        }
        chip.start([None; 2]);
        let mut keeper = chip.open(nth % 3 == 0).unwrap();
        judge.opened(&keeper, 10, &format!("cut {cut:?}"));
        keeper.purge().unwrap();
        assert!(!chip.has_word(KEY), "cut {cut:?}");
        judge.opened(&keeper, 10, &format!("cut {cut:?}, purged"));
    }
}

#[test]
fn a_word_is_programmed_a_few_times_between_erases() {
    let chip = Chip::of_cells(30, 1);
    let mut keeper = chip.format(5);
    let mut judge = Judge::default();
    for boot in 0..1000u32 {
        for put in 0..boot % 5 {
            assert!(judge.put(&mut keeper, 1 + put, vec![boot as u8; 20]));
        }
        keeper = chip.open(boot % 2 == 0).unwrap();
        judge.opened(&keeper, 5, &format!("boot {boot}"));
    }
    println!("most programs of a word {}", chip.most_programs());
    assert!(chip.most_programs() <= 4);
}

/// No cell is left that an opening could close, so it makes the last mark firm each time; the next put copies the log to the other bank.
#[test]
fn starts_at_a_full_log_program_its_last_mark_each_time() {
    let chip = Chip::of_cells(30, 1);
    let mut keeper = chip.format(5);
    let mut judge = Judge::default();
    for put in 0..30 {
        assert!(judge.put(&mut keeper, 1 + put % 5, vec![put as u8; 20]));
    }
    let erases = chip.erases();
    assert_eq!(chip.most_programs(), 1);
    for boot in 1..=40 {
        keeper = chip.open(boot % 2 == 0).unwrap();
        judge.opened(&keeper, 5, &format!("boot {boot}"));
        assert_eq!(chip.most_programs(), 1 + boot);
    }
    assert_eq!(chip.erases(), erases);
    assert!(judge.put(&mut keeper, 1, vec![0; 20]));
    assert_eq!(chip.erases(), erases + 1);
}

#[test]
fn a_part_that_refuses_programs_stops_the_store_and_loses_nothing() {
    for limit in 1..4 {
        let chip = Chip::of_cells(10, 1);
        let mut keeper = chip.format(2);
        let mut judge = Judge::default();
        assert!(judge.put(&mut keeper, 1, vec![1; 20]));
        for bank in &chip.banks {
            bank.0.borrow_mut().refuse_past(limit);
        }
        for boot in 0..40 {
            match chip.open(boot % 2 == 0) {
                Ok(mut keeper) => {
                    judge.opened(&keeper, 2, &format!("limit {limit}, boot {boot}"));
                    judge.put(&mut keeper, 2, vec![boot as u8; 20]);
                }
                Err(fault) => assert_eq!(fault, OpenFault::Flash),
            }
        }
    }
}

/// The slots of a meter, each in use, with the length of its record: ring, counters and floors, and the tables of marks, ranks and broadcasts.
fn records_of_a_meter() -> Vec<(u32, usize)> {
    let tables = [(0x100, 64), (0x200, 64), (0x300, 32)];
    let entries = tables.into_iter().flat_map(|(first, count)| (first..first + count).map(|slot| (slot, 6)));
    [(1, 38), (2, 4), (3, 2), (4, 2), (5, 32), (6, 4)].into_iter().chain(entries).collect()
}

#[test]
fn a_full_meter_fits_two_banks_of_4_kib() {
    let slots = records_of_a_meter();
    let words = slots.iter().map(|(_, length)| 1 + length.div_ceil(8)).sum();
    assert_eq!((slots.len(), words), (166, 339));
    for (size, puts) in [(512, 14), (2_560, 184)] {
        let chip = Chip::new([size; 2], 1);
        let [first, second] = chip.banks.clone();
        assert!(matches!(FlashKeeper::format(first.clone(), second.clone(), words, puts + 1), Err((OpenFault::Small, ..))));
        let mut keeper = FlashKeeper::format(first, second, words, puts).map_err(|it| it.0).unwrap();
        let mut judge = Judge::default();
        for (slot, length) in &slots {
            assert!(judge.put(&mut keeper, *slot, vec![*slot as u8; *length]));
        }
        keeper.purge().unwrap();
        let (erases, programs) = (chip.erases(), chip.programs());
        let (mut chance, mut most) = (Chance(1), 0);
        for put in 0..50 * puts {
            let (slot, length) = slots[chance.below(166) as usize];
            chip.reads();
            assert!(judge.put(&mut keeper, slot, vec![put as u8; length]));
            most = most.max(chip.reads());
        }
        assert_eq!(chip.erases() - erases, 49);
        let programs = (chip.programs() - programs) as usize / (50 * puts);
        keeper = chip.open(false).unwrap();
        let opening = chip.reads();
        assert!(slots.iter().all(|(slot, _)| keeper.get(*slot).is_some()));
        let gets = chip.reads();
        judge.opened(&keeper, 0x320, &format!("{size} words"));
        println!("a full meter in banks of {size} words: one erase in {puts} puts, {programs} programs a put; words read:");
        println!("    by a put at most {most}, by an opening {opening}, by a get of each record {gets}");
    }
}
