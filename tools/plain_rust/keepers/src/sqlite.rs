//! A keeper over a file of SQLite, by its C library.
use core::ffi::{CStr, c_char, c_int, c_void};
use core::ptr::{null, null_mut};
use plc_base::{Failed, Keeper, Record};
use std::collections::BTreeMap;
use std::ffi::CString;
use std::string::{String, ToString};

#[repr(C)]
struct Database([u8; 0]);

#[repr(C)]
struct Statement([u8; 0]);

#[link(name = "sqlite3")]
unsafe extern "C" {
    fn sqlite3_open_v2(path: *const c_char, to: *mut *mut Database, flags: c_int, vfs: *const c_char) -> c_int;
    fn sqlite3_close(database: *mut Database) -> c_int;
    fn sqlite3_prepare_v2(from: *mut Database, sql: *const c_char, size: c_int, to: *mut *mut Statement, tail: *mut *const c_char) -> c_int;
    fn sqlite3_step(statement: *mut Statement) -> c_int;
    fn sqlite3_finalize(statement: *mut Statement) -> c_int;
    fn sqlite3_bind_int64(statement: *mut Statement, at: c_int, number: i64) -> c_int;
    fn sqlite3_bind_blob(statement: *mut Statement, at: c_int, octets: *const c_void, size: c_int, destructor: isize) -> c_int;
    fn sqlite3_column_int64(statement: *mut Statement, at: c_int) -> i64;
    fn sqlite3_column_blob(statement: *mut Statement, at: c_int) -> *const c_void;
    fn sqlite3_column_bytes(statement: *mut Statement, at: c_int) -> c_int;
    fn sqlite3_column_text(statement: *mut Statement, at: c_int) -> *const c_char;
}

const OK: c_int = 0;
const ROW: c_int = 100;
const DONE: c_int = 101;
const READ_AND_WRITE: c_int = 2;
const CREATE: c_int = 4;
/// SQLite copies what is bound.
const TRANSIENT: isize = -1;
/// The number of the layout, as `user_version` of the file.
const LAYOUT: &str = "1";
/// A row of the file with another length than a record can have is no record of this keeper.
const MOST: usize = 64;

/// Why a store was not opened.
#[derive(Clone, Copy, Debug, PartialEq, Eq)]
pub enum OpenFault {
    /// SQLite could not read or write the file, or does not do what this keeper rests on. Open it again; where that does not help, another process has it open,
    /// or it is damaged.
    Sqlite,
    /// There is no such file, or it holds no store of this layout.
    NoStore,
    /// `format` was to make a store where there is one.
    IsThere,
}

/// The file, while it is open.
struct File(*mut Database);

impl Drop for File {
    fn drop(&mut self) {
        // Each statement was finalized before.
        unsafe { sqlite3_close(self.0) };
    }
}

/// A statement, while it is used.
struct Prepared(*mut Statement);

impl Drop for Prepared {
    fn drop(&mut self) {
        unsafe { sqlite3_finalize(self.0) };
    }
}

impl File {
    fn open(path: &CStr, vfs: Option<&CStr>, more: c_int) -> Result<File, OpenFault> {
        let mut database = null_mut();
        let status = unsafe { sqlite3_open_v2(path.as_ptr(), &mut database, READ_AND_WRITE | more, vfs.map_or(null(), CStr::as_ptr)) };
        let file = File(database);
        if status == OK { Ok(file) } else { Err(OpenFault::NoStore) }
    }

    fn prepared(&self, sql: &str) -> Result<Prepared, Failed> {
        let sql = CString::new(sql).map_err(|_| Failed)?;
        let mut statement = null_mut();
        let status = unsafe { sqlite3_prepare_v2(self.0, sql.as_ptr(), -1, &mut statement, null_mut()) };
        let prepared = Prepared(statement);
        if status == OK { Ok(prepared) } else { Err(Failed) }
    }

    /// What the first column of the last row says, or nothing where there is no row.
    fn answer(&self, sql: &str) -> Result<String, Failed> {
        let statement = self.prepared(sql)?;
        let mut answer = String::new();
        loop {
            match unsafe { sqlite3_step(statement.0) } {
                ROW => {
                    let text = unsafe { sqlite3_column_text(statement.0, 0) };
                    if !text.is_null() {
                        answer = unsafe { CStr::from_ptr(text) }.to_string_lossy().to_string();
                    }
                }
                DONE => return Ok(answer),
                _ => return Err(Failed),
            }
        }
    }

    /// Has SQLite store a record before it answers Ok, and sees that it will.
    fn set_up(&self) -> Result<(), Failed> {
        self.answer("PRAGMA locking_mode = EXCLUSIVE")?;
        self.answer("PRAGMA synchronous = FULL")?;
        let journal = self.answer("PRAGMA journal_mode = TRUNCATE")?;
        let synchronous = self.answer("PRAGMA synchronous")?;
        if journal == "truncate" && synchronous == "2" { Ok(()) } else { Err(Failed) }
    }

    fn records(&self) -> Result<BTreeMap<u32, Record>, Failed> {
        let statement = self.prepared("SELECT slot, octets FROM record")?;
        let mut records = BTreeMap::new();
        loop {
            match unsafe { sqlite3_step(statement.0) } {
                ROW => {
                    let slot = u32::try_from(unsafe { sqlite3_column_int64(statement.0, 0) }).map_err(|_| Failed)?;
                    let octets = unsafe { sqlite3_column_blob(statement.0, 1) };
                    let size = unsafe { sqlite3_column_bytes(statement.0, 1) } as usize;
                    if size > MOST || size > 0 && octets.is_null() {
                        return Err(Failed);
                    }
                    // They live until the next step. SQLite gives no place for no octets.
                    let octets = if size == 0 { &[][..] } else { unsafe { core::slice::from_raw_parts(octets.cast::<u8>(), size) } };
                    records.insert(slot, Record::from_octets(octets));
                }
                DONE => return Ok(records),
                _ => return Err(Failed),
            }
        }
    }

    fn put(&self, slot: u32, octets: &[u8]) -> Result<(), Failed> {
        let statement = self.prepared("INSERT OR REPLACE INTO record (slot, octets) VALUES (?1, ?2)")?;
        let bound = unsafe {
            [
                sqlite3_bind_int64(statement.0, 1, i64::from(slot)),
                sqlite3_bind_blob(statement.0, 2, octets.as_ptr().cast(), octets.len() as c_int, TRANSIENT),
            ]
        };
        // Each statement is a transaction of its own, which is stored when the step is done.
        if bound == [OK, OK] && unsafe { sqlite3_step(statement.0) } == DONE { Ok(()) } else { Err(Failed) }
    }
}

/// A keeper over a file of SQLite, which it alone has open. It holds the records in memory too, so that a get does not fail.
///
/// It sets `synchronous = FULL`: a commit has then reached the disk when a put answers Ok. With NORMAL or OFF a loss of power takes back the last put, and a
/// node would use a counter twice (the test finds it). The journal is truncated, and not deleted: SQLite syncs that with FULL, a deletion only with EXTRA, and
/// a journal that comes back takes back the last put.
pub struct SqliteKeeper {
    file: File,
    records: BTreeMap<u32, Record>,
    has_failed: bool,
}

impl SqliteKeeper {
    /// Makes a store with no record in a new file: for a new device.
    pub fn format(path: &CStr, vfs: Option<&CStr>) -> Result<SqliteKeeper, OpenFault> {
        let file = File::open(path, vfs, CREATE)?;
        file.set_up().map_err(|Failed| OpenFault::Sqlite)?;
        if file.answer("SELECT count(*) FROM sqlite_schema").map_err(|Failed| OpenFault::Sqlite)? != "0" {
            return Err(OpenFault::IsThere);
        }
        for it in ["BEGIN", "CREATE TABLE record (slot INTEGER PRIMARY KEY, octets BLOB NOT NULL)", "PRAGMA user_version = 1", "COMMIT"] {
            file.answer(it).map_err(|Failed| OpenFault::Sqlite)?;
        }
        Ok(SqliteKeeper { file, records: BTreeMap::new(), has_failed: false })
    }

    /// Opens the store after a start, or after a put that failed. `vfs` names what SQLite reaches files by, None as it does on this system.
    pub fn open(path: &CStr, vfs: Option<&CStr>) -> Result<SqliteKeeper, OpenFault> {
        let file = File::open(path, vfs, 0)?;
        file.set_up().map_err(|Failed| OpenFault::Sqlite)?;
        if file.answer("PRAGMA user_version").map_err(|Failed| OpenFault::Sqlite)? != LAYOUT {
            return Err(OpenFault::NoStore);
        }
        let records = file.records().map_err(|Failed| OpenFault::Sqlite)?;
        Ok(SqliteKeeper { file, records, has_failed: false })
    }
}

impl Keeper for SqliteKeeper {
    fn get(&self, slot: u32) -> Option<Record> {
        self.records.get(&slot).map(Record::copied)
    }

    /// Writes the record. It fails where SQLite does; then each further put fails, until the file is opened again.
    fn put(&mut self, slot: u32, octets: &Record) -> Result<(), Failed> {
        if self.has_failed {
            return Err(Failed);
        }
        self.has_failed = true;
        self.file.put(slot, octets.octets())?;
        self.records.insert(slot, octets.copied());
        self.has_failed = false;
        Ok(())
    }
}
