//! `SqliteKeeper` over a disk whose power fails: SQLite reaches its files by a VFS of this test, which holds them in memory.
mod common;

use common::chance::{Chance, runs};
use common::disk::Disk;
use common::judge::Judge;
use keepers::sqlite::{OpenFault, SqliteKeeper};
use plc_base::{Keeper, Record};

const PATH: &std::ffi::CStr = c"store";

#[test]
fn power_fails_in_each_operation_of_the_disk_and_each_record_is_the_old_or_the_new_one() {
    let (mut puts, mut openings) = (0, 0);
    for seed in 0..runs(60) {
        let mut chance = Chance(seed);
        let slots = 1 + chance.below(30);
        let disk = Disk::registered(seed);
        let mut keeper = SqliteKeeper::format(PATH, Some(disk.name())).unwrap();
        let mut judge = Judge::default();
        for session in 0..40 {
            disk.cut(Some(1 + chance.below(40)));
            while judge.put(&mut keeper, 1 + chance.below(slots) as u32, chance.octets()) {
                puts += 1;
            }
            for again in 0..1 + chance.below(3) {
                drop(keeper);
                keeper = loop {
                    disk.start((chance.below(2) == 0).then(|| 1 + chance.below(8)));
                    openings += 1;
                    match SqliteKeeper::open(PATH, Some(disk.name())) {
                        Ok(keeper) => break keeper,
                        Err(fault) => assert!(disk.is_off(), "{fault:?}, seed {seed}, session {session}"),
                    }
                };
                judge.opened(&keeper, slots as u32, &format!("seed {seed}, session {session}, opening {again}"));
            }
        }
        drop(keeper);
    }
    println!("SQLite: {puts} puts, {openings} openings");
}

#[test]
fn a_store_is_found_again_in_a_file_and_no_other_is_taken_for_one() {
    let path = std::env::temp_dir().join(format!("keepers-{}.sqlite", std::process::id()));
    let name = std::ffi::CString::new(path.to_str().unwrap()).unwrap();
    assert_eq!(SqliteKeeper::open(&name, None).err(), Some(OpenFault::NoStore));
    let mut keeper = SqliteKeeper::format(&name, None).unwrap();
    keeper.put(1, &Record::from_octets(&[7; 64])).unwrap();
    keeper.put(0x13E6, &Record::from_octets(&[])).unwrap();
    assert_eq!(SqliteKeeper::open(&name, None).err(), Some(OpenFault::Sqlite));
    drop(keeper);
    let keeper = SqliteKeeper::open(&name, None).unwrap();
    assert_eq!(keeper.get(1).unwrap().octets(), [7; 64]);
    assert_eq!(keeper.get(0x13E6).unwrap().octets(), []);
    assert!(keeper.get(2).is_none());
    drop(keeper);
    assert_eq!(SqliteKeeper::format(&name, None).err(), Some(OpenFault::IsThere));
    std::fs::remove_file(&path).unwrap();
    std::fs::write(&path, b"").unwrap();
    assert_eq!(SqliteKeeper::open(&name, None).err(), Some(OpenFault::NoStore));
    std::fs::remove_file(&path).unwrap();
    let _ = std::fs::remove_file(path.with_extension("sqlite-journal"));
}
