//! What C gives a node: a store, a modem, what takes datagrams, and random values.
use core::ffi::{c_int, c_void};
use plc_base::{Failed, Keeper, RandomOctets, Record};

/// `struct meter_device`. Each function gets `this`.
#[repr(C)]
#[derive(Clone, Copy)]
pub struct Device {
    this: *mut c_void,
    load: Option<unsafe extern "C" fn(*mut c_void, u32, *mut u8) -> c_int>,
    store: Option<unsafe extern "C" fn(*mut c_void, u32, *const u8, usize) -> c_int>,
    send: Option<unsafe extern "C" fn(*mut c_void, u32, *const u8, usize)>,
    up: Option<unsafe extern "C" fn(*mut c_void, u16, u32, *const u8, usize)>,
    joined: Option<unsafe extern "C" fn(*mut c_void, u16)>,
    random: Option<unsafe extern "C" fn(*mut c_void, *mut u8) -> c_int>,
}

impl Device {
    /// Whether it has the functions that it has to have.
    pub fn is_whole(&self) -> bool {
        self.load.is_some() && self.store.is_some() && self.send.is_some() && self.up.is_some()
    }

    pub fn send(&self, note: u32, frame: &[u8]) {
        if let Some(send) = self.send {
            unsafe { send(self.this, note, frame.as_ptr(), frame.len()) }
        }
    }

    pub fn up(&self, from: u16, note: u32, datagram: &[u8]) {
        if let Some(up) = self.up {
            unsafe { up(self.this, from, note, datagram.as_ptr(), datagram.len()) }
        }
    }

    pub fn joined(&self, address: u16) {
        if let Some(joined) = self.joined {
            unsafe { joined(self.this, address) }
        }
    }

    /// A random value, where the device has a source of them that answers 0.
    pub fn random(&self) -> Option<RandomOctets> {
        let mut value = [0; 16];
        let is_given = unsafe { self.random?(self.this, value.as_mut_ptr()) } == 0;
        is_given.then_some(RandomOctets(value))
    }
}

impl Keeper for Device {
    /// A record that the device says is longer than one can be has no reading, so that the node does not open.
    fn get(&self, slot: u32) -> Option<Record> {
        let mut octets = [0xFF; 64];
        let count = unsafe { self.load?(self.this, slot, octets.as_mut_ptr()) };
        let count = usize::try_from(count).ok()?;
        let record = octets.get(..count).and_then(Record::try_from_octets);
        Some(record.unwrap_or_else(|| Record::from_octets(&[0xFF; 64])))
    }

    fn put(&mut self, slot: u32, octets: &Record) -> Result<(), Failed> {
        let octets = octets.octets();
        match self.store {
            Some(store) if unsafe { store(self.this, slot, octets.as_ptr(), octets.len()) } == 0 => Ok(()),
            _ => Err(Failed),
        }
    }
}
