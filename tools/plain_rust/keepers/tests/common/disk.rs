//! A disk in memory whose power fails, which SQLite reaches as a VFS (its C interface, version 1).
use super::chance::Chance;
use std::cell::RefCell;
use std::collections::BTreeMap;
use std::ffi::{CStr, CString, c_char, c_int, c_void};
use std::ptr::null_mut;

const OK: c_int = 0;
const IO: c_int = 10;
const NOT_FOUND: c_int = 12;
const CANNOT_OPEN: c_int = 14;
const SHORT_READ: c_int = 522;
const CREATE: c_int = 4;
/// What a disk writes at once.
const SECTOR: usize = 512;

#[repr(C)]
struct File {
    methods: *const Methods,
    disk: *const RefCell<Parts>,
    name: *mut String,
}

#[repr(C)]
struct Methods {
    version: c_int,
    close: unsafe extern "C" fn(*mut File) -> c_int,
    read: unsafe extern "C" fn(*mut File, *mut u8, c_int, i64) -> c_int,
    write: unsafe extern "C" fn(*mut File, *const u8, c_int, i64) -> c_int,
    truncate: unsafe extern "C" fn(*mut File, i64) -> c_int,
    sync: unsafe extern "C" fn(*mut File, c_int) -> c_int,
    size: unsafe extern "C" fn(*mut File, *mut i64) -> c_int,
    lock: unsafe extern "C" fn(*mut File, c_int) -> c_int,
    unlock: unsafe extern "C" fn(*mut File, c_int) -> c_int,
    is_reserved: unsafe extern "C" fn(*mut File, *mut c_int) -> c_int,
    control: unsafe extern "C" fn(*mut File, c_int, *mut c_void) -> c_int,
    sector: unsafe extern "C" fn(*mut File) -> c_int,
    characteristics: unsafe extern "C" fn(*mut File) -> c_int,
}

#[repr(C)]
struct Vfs {
    version: c_int,
    file_size: c_int,
    most_path: c_int,
    next: *mut Vfs,
    name: *const c_char,
    disk: *const RefCell<Parts>,
    open: unsafe extern "C" fn(*mut Vfs, *const c_char, *mut File, c_int, *mut c_int) -> c_int,
    delete: unsafe extern "C" fn(*mut Vfs, *const c_char, c_int) -> c_int,
    access: unsafe extern "C" fn(*mut Vfs, *const c_char, c_int, *mut c_int) -> c_int,
    full_path: unsafe extern "C" fn(*mut Vfs, *const c_char, c_int, *mut c_char) -> c_int,
    libraries: [*mut c_void; 4],
    randomness: unsafe extern "C" fn(*mut Vfs, c_int, *mut u8) -> c_int,
    sleep: unsafe extern "C" fn(*mut Vfs, c_int) -> c_int,
    time: unsafe extern "C" fn(*mut Vfs, *mut f64) -> c_int,
    last_error: unsafe extern "C" fn(*mut Vfs, c_int, *mut c_char) -> c_int,
}

// SQLite hands the disk back, and does not look at it.
#[allow(improper_ctypes)]
#[link(name = "sqlite3")]
unsafe extern "C" {
    fn sqlite3_vfs_register(vfs: *mut Vfs, is_default: c_int) -> c_int;
}

/// A change that has not been synced.
enum Change {
    Write(usize, Vec<u8>),
    Size(usize),
}

#[derive(Default)]
struct Inode {
    /// What a reading shows while power holds.
    now: Vec<u8>,
    is_there: bool,
    /// What is on the disk for sure, and changes of which any may be.
    synced: Vec<u8>,
    is_entered: bool,
    changes: Vec<Change>,
}

struct Parts {
    files: BTreeMap<String, Inode>,
    chance: Chance,
    cut: Option<u64>,
    is_off: bool,
}

/// The disk, with the name of its VFS.
pub struct Disk {
    parts: &'static RefCell<Parts>,
    name: &'static CStr,
}

impl Disk {
    /// A new disk, registered with SQLite.
    pub fn registered(seed: u64) -> Disk {
        let parts: &'static RefCell<Parts> =
            Box::leak(Box::new(RefCell::new(Parts { files: BTreeMap::new(), chance: Chance(seed), cut: None, is_off: false })));
        let name: &'static CStr = Box::leak(CString::new(format!("disk {seed}")).unwrap().into_boxed_c_str());
        let vfs = Box::leak(Box::new(Vfs {
            version: 1,
            file_size: size_of::<File>() as c_int,
            most_path: 100,
            next: null_mut(),
            name: name.as_ptr(),
            disk: parts,
            open,
            delete,
            access,
            full_path,
            libraries: [null_mut(); 4],
            randomness,
            sleep,
            time,
            last_error,
        }));
        assert_eq!(unsafe { sqlite3_vfs_register(vfs, 0) }, OK);
        Disk { parts, name }
    }

    pub fn name(&self) -> &'static CStr {
        self.name
    }

    /// Has power fail in this write, truncation, sync or deletion, counted from 1 for the next one.
    pub fn cut(&self, nth: Option<u64>) {
        self.parts.borrow_mut().cut = nth;
    }

    pub fn is_off(&self) -> bool {
        self.parts.borrow().is_off
    }

    /// Power fails, if it did not yet, and comes back.
    pub fn start(&self, nth: Option<u64>) {
        let parts = &mut *self.parts.borrow_mut();
        for file in parts.files.values_mut() {
            file.lose_power(&mut parts.chance);
        }
        parts.files.retain(|_, it| it.is_there);
        parts.is_off = false;
        parts.cut = nth;
    }
}

fn changed(octets: &mut Vec<u8>, at: usize, more: &[u8]) {
    octets.resize(octets.len().max(at + more.len()), 0);
    octets[at..at + more.len()].copy_from_slice(more);
}

impl Inode {
    fn change(&mut self, change: Change) {
        match &change {
            Change::Write(at, octets) => changed(&mut self.now, *at, octets),
            Change::Size(size) => self.now.resize(*size, 0),
        }
        self.changes.push(change);
    }

    /// Of what was not synced any changes are done, each sector of a write by itself, or holds anything.
    fn lose_power(&mut self, chance: &mut Chance) {
        let keeps_all = chance.below(4) == 0;
        for change in self.changes.drain(..) {
            match change {
                Change::Size(size) if keeps_all || chance.below(2) == 0 => self.synced.resize(size, 0),
                Change::Size(_) => {}
                Change::Write(mut at, octets) => {
                    let mut rest = &octets[..];
                    while !rest.is_empty() {
                        let (piece, more) = rest.split_at(rest.len().min(SECTOR - at % SECTOR));
                        match chance.below(5) {
                            _ if keeps_all => changed(&mut self.synced, at, piece),
                            0 | 1 => changed(&mut self.synced, at, piece),
                            2 => changed(&mut self.synced, at, &piece.iter().map(|_| chance.number() as u8).collect::<Vec<_>>()),
                            _ => {}
                        }
                        at += piece.len();
                        rest = more;
                    }
                }
            }
        }
        if self.is_there != self.is_entered {
            self.is_there = chance.below(2) == 0;
        }
        self.is_entered = self.is_there;
        self.now = self.synced.clone();
    }
}

impl Parts {
    /// Whether the next operation of the disk begins, and whether it ends.
    fn power(&mut self) -> (bool, bool) {
        let begins = !self.is_off;
        if begins {
            self.is_off = self.cut == Some(1);
            self.cut = self.cut.map(|it| it.saturating_sub(1)).filter(|it| *it > 0);
        }
        (begins, begins && !self.is_off)
    }

    /// Changes a file, where there is power.
    fn change(&mut self, name: &str, change: Change) -> c_int {
        let (begins, ends) = self.power();
        if begins {
            self.files.get_mut(name).unwrap().change(change);
        }
        if ends { OK } else { IO }
    }
}

unsafe fn at<'a>(file: *mut File) -> (std::cell::RefMut<'a, Parts>, &'a str) {
    unsafe { ((*(*file).disk).borrow_mut(), &*(*file).name) }
}

unsafe fn text<'a>(name: *const c_char) -> &'a str {
    if name.is_null() { "temporary" } else { unsafe { CStr::from_ptr(name) }.to_str().unwrap() }
}

unsafe extern "C" fn close(file: *mut File) -> c_int {
    drop(unsafe { Box::from_raw((*file).name) });
    OK
}

unsafe extern "C" fn read(file: *mut File, to: *mut u8, size: c_int, from: i64) -> c_int {
    let (parts, name) = unsafe { at(file) };
    if parts.is_off {
        return IO;
    }
    let to = unsafe { std::slice::from_raw_parts_mut(to, size as usize) };
    let octets = parts.files[name].now.get(from as usize..).unwrap_or(&[]);
    let count = octets.len().min(to.len());
    to[..count].copy_from_slice(&octets[..count]);
    to[count..].fill(0);
    if count == to.len() { OK } else { SHORT_READ }
}

unsafe extern "C" fn write(file: *mut File, from: *const u8, size: c_int, to: i64) -> c_int {
    let (mut parts, name) = unsafe { at(file) };
    parts.change(name, Change::Write(to as usize, unsafe { std::slice::from_raw_parts(from, size as usize) }.to_vec()))
}

unsafe extern "C" fn truncate(file: *mut File, size: i64) -> c_int {
    let (mut parts, name) = unsafe { at(file) };
    parts.change(name, Change::Size(size as usize))
}

unsafe extern "C" fn sync(file: *mut File, _: c_int) -> c_int {
    let (mut parts, name) = unsafe { at(file) };
    if !parts.power().1 {
        return IO;
    }
    let file = parts.files.get_mut(name).unwrap();
    file.synced = file.now.clone();
    file.changes.clear();
    file.is_entered = file.is_there;
    OK
}

unsafe extern "C" fn size(file: *mut File, to: *mut i64) -> c_int {
    let (parts, name) = unsafe { at(file) };
    unsafe { *to = parts.files[name].now.len() as i64 };
    OK
}

unsafe extern "C" fn lock(_: *mut File, _: c_int) -> c_int {
    OK
}

unsafe extern "C" fn is_reserved(_: *mut File, to: *mut c_int) -> c_int {
    unsafe { *to = 0 };
    OK
}

unsafe extern "C" fn control(_: *mut File, _: c_int, _: *mut c_void) -> c_int {
    NOT_FOUND
}

unsafe extern "C" fn sector(_: *mut File) -> c_int {
    SECTOR as c_int
}

unsafe extern "C" fn characteristics(_: *mut File) -> c_int {
    0
}

static METHODS: Methods = Methods {
    version: 1,
    close,
    read,
    write,
    truncate,
    sync,
    size,
    lock,
    unlock: lock,
    is_reserved,
    control,
    sector,
    characteristics,
};

unsafe extern "C" fn open(vfs: *mut Vfs, name: *const c_char, file: *mut File, flags: c_int, out: *mut c_int) -> c_int {
    let mut parts = unsafe { (*(*vfs).disk).borrow_mut() };
    let name = unsafe { text(name) }.to_string();
    unsafe { (*file).methods = std::ptr::null() };
    if parts.is_off || flags & CREATE == 0 && !parts.files.get(&name).is_some_and(|it| it.is_there) {
        return CANNOT_OPEN;
    }
    let inode = parts.files.entry(name.clone()).or_default();
    if !inode.is_there {
        inode.is_there = true;
        inode.change(Change::Size(0));
    }
    unsafe {
        file.write(File { methods: &METHODS, disk: (*vfs).disk, name: Box::into_raw(Box::new(name)) });
        if !out.is_null() {
            *out = flags;
        }
    }
    OK
}

unsafe extern "C" fn delete(vfs: *mut Vfs, name: *const c_char, is_synced: c_int) -> c_int {
    let mut parts = unsafe { (*(*vfs).disk).borrow_mut() };
    let (begins, ends) = parts.power();
    if let Some(file) = parts.files.get_mut(unsafe { text(name) })
        && begins
    {
        file.is_there = false;
        file.is_entered &= is_synced == 0 || !ends;
    }
    if ends { OK } else { IO }
}

unsafe extern "C" fn access(vfs: *mut Vfs, name: *const c_char, _: c_int, to: *mut c_int) -> c_int {
    let parts = unsafe { (*(*vfs).disk).borrow() };
    unsafe { *to = parts.files.get(text(name)).is_some_and(|it| it.is_there) as c_int };
    if parts.is_off { IO } else { OK }
}

unsafe extern "C" fn full_path(_: *mut Vfs, name: *const c_char, size: c_int, to: *mut c_char) -> c_int {
    let octets = unsafe { CStr::from_ptr(name) }.to_bytes_with_nul();
    assert!(octets.len() <= size as usize);
    unsafe { to.cast::<u8>().copy_from_nonoverlapping(octets.as_ptr(), octets.len()) };
    OK
}

unsafe extern "C" fn randomness(vfs: *mut Vfs, count: c_int, to: *mut u8) -> c_int {
    let mut parts = unsafe { (*(*vfs).disk).borrow_mut() };
    unsafe { std::slice::from_raw_parts_mut(to, count as usize) }.fill_with(|| parts.chance.number() as u8);
    count
}

unsafe extern "C" fn sleep(_: *mut Vfs, _: c_int) -> c_int {
    0
}

unsafe extern "C" fn time(_: *mut Vfs, to: *mut f64) -> c_int {
    unsafe { *to = 2_460_000.5 };
    OK
}

unsafe extern "C" fn last_error(_: *mut Vfs, _: c_int, _: *mut c_char) -> c_int {
    0
}
