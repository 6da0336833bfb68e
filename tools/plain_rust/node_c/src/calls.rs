//! The calls of meter.h. An argument out of its range is METER_MALFORMED, and nothing is done.
use crate::codes::{DONE, MALFORMED};
use crate::device::Device;
use crate::nodes::{Ended, Inner, Lodged, Node, call, draw, open_coordinator, open_in, open_meter, restart, room};
use core::ffi::{c_int, c_void};
use core::ptr::null_mut;
use core::slice;
use node_rules::Came;
use plc_base::{Eui, Grant, Key, KeyIndex, LinkCost, RandomOctets, Short};

type Meter = Lodged<meter_node::Meter<Device>>;
type Coordinator = Lodged<coordinator::Coordinator<Device>>;

/// Octets of C; none where a null has a count, and where there are none the pointer may be null.
///
/// # Safety
/// A pointer that is not null has so many octets behind it.
pub unsafe fn octets_of<'a>(octets: *const u8, count: usize) -> Option<&'a [u8]> {
    match (octets.is_null(), count) {
        (_, 0) => Some(&[]),
        (true, _) => None,
        (false, _) => Some(unsafe { slice::from_raw_parts(octets, count) }),
    }
}

/// The same of octets that are written.
///
/// # Safety
/// As for `octets_of`, and nobody else has them.
pub unsafe fn room_of<'a>(octets: *mut u8, count: usize) -> Option<&'a mut [u8]> {
    match (octets.is_null(), count) {
        (_, 0) => Some(&mut []),
        (true, _) => None,
        (false, _) => Some(unsafe { slice::from_raw_parts_mut(octets, count) }),
    }
}

// A call whose arguments have readings.
macro_rules! made {
    ($at:expr, |$inner:ident| $given:expr, |$name:pat_param| $made:expr) => {
        unsafe {
            call($at, |$inner| match $given {
                Some($name) => $made,
                None => Ended::with(MALFORMED),
            })
        }
    };
}

unsafe fn key_of(key: *const [u8; 16]) -> Option<Key> {
    unsafe { key.as_ref() }.map(|it| Key(*it))
}

unsafe fn eui_of(eui: *const [u8; 8]) -> Option<Eui> {
    unsafe { eui.as_ref() }.map(|it| Eui(*it))
}

unsafe fn opened<N: Node>(at: *mut *mut Lodged<N>, made: Result<*mut Lodged<N>, c_int>) -> c_int {
    let (place, status) = match made {
        Ok(place) => (place, DONE),
        Err(status) => (null_mut(), status),
    };
    // The caller's pointer is not null: both openings have looked.
    unsafe { at.write(place) };
    status
}

unsafe fn next_end<N: Node>(at: *mut Lodged<N>, time: *mut u64) -> c_int {
    let mut end = None;
    let status = unsafe {
        call(at, |inner| {
            end = inner.node.next_end();
            Ended::with(DONE)
        })
    };
    match end {
        Some(end) if status == DONE && !time.is_null() => {
            unsafe { time.write(end) };
            1
        }
        _ => 0,
    }
}

unsafe fn expiring<N: Node>(at: *mut Lodged<N>, now: u64, notes: *mut [u32; 8]) -> c_int {
    let mut count = 0;
    unsafe {
        call(at, |inner| {
            if let Some(places) = notes.as_mut() {
                for (place, note) in places.iter_mut().zip(inner.node.station().expiring(now)) {
                    *place = note;
                    count += 1;
                }
            }
            Ended::with(DONE)
        })
    };
    count
}

unsafe fn hear<N: Node>(at: *mut Lodged<N>, cost: u8, note: u32, now: u64, frame: *const u8, count: usize) -> c_int {
    let given = LinkCost::new(cost).zip(unsafe { octets_of(frame, count) });
    made!(at, |inner| given, |(cost, frame)| inner.hear(frame, Came { cost, note, time: now }))
}

unsafe fn send<N: Node>(at: *mut Lodged<N>, to: u16, note: u32, now: u64, octets: *const u8, count: usize) -> c_int {
    let given = Short::new(to).zip(unsafe { octets_of(octets, count) });
    made!(at, |inner| given, |(to, octets)| {
        let Inner { node, out, .. } = inner;
        let answer = node.station().send(to, octets, note, now, out);
        inner.sent(answer)
    })
}

unsafe fn near<N: Node>(at: *mut Lodged<N>, neighbour: u16, cost: u8, now: u64) -> c_int {
    let given = Short::new(neighbour).zip(LinkCost::new(cost));
    made!(at, |inner| given, |(to, cost)| {
        let answer = inner.node.station().preset_near(to, cost, now);
        inner.done(answer)
    })
}

unsafe fn random<N: Node>(at: *mut Lodged<N>, value: *const [u8; 16]) -> c_int {
    let given = unsafe { value.as_ref() };
    made!(at, |inner| given, |value| {
        let answer = inner.node.give_random(RandomOctets(*value));
        inner.done(answer)
    })
}

unsafe fn broke<N: Node>(at: *mut Lodged<N>, neighbour: u16) -> c_int {
    made!(at, |inner| Short::new(neighbour), |next| {
        // A halted node takes no call, so this is not refused.
        let _ = inner.node.station().broke(next);
        Ended::with(DONE)
    })
}

unsafe fn tick<N: Node>(at: *mut Lodged<N>, now: u64) -> c_int {
    unsafe {
        call(at, |inner| {
            inner.node.tick(now);
            Ended::with(DONE)
        })
    }
}

unsafe fn address<N: Node>(at: *mut Lodged<N>) -> u16 {
    let mut address = None;
    unsafe {
        call(at, |inner| {
            address = inner.node.address();
            Ended::with(DONE)
        })
    };
    address.map_or(0xFFFF, Short::number)
}

// The calls that both kinds have, under the names of C.
macro_rules! exported {
    ($node:ty, $room:ident, $restart:ident, $near:ident, $random:ident, $tick:ident, $next_end:ident, $expiring:ident, $send:ident, $hear:ident, $broke:ident, $address:ident) => {
        #[unsafe(no_mangle)]
        extern "C" fn $room() -> usize {
            room_of_node::<$node>()
        }
        #[unsafe(no_mangle)]
        unsafe extern "C" fn $restart(m: *mut $node) -> c_int {
            unsafe { restart(m) }
        }
        #[unsafe(no_mangle)]
        unsafe extern "C" fn $near(m: *mut $node, neighbour: u16, cost: u8, now: u64) -> c_int {
            unsafe { near(m, neighbour, cost, now) }
        }
        #[unsafe(no_mangle)]
        unsafe extern "C" fn $random(m: *mut $node, value: *const [u8; 16]) -> c_int {
            unsafe { random(m, value) }
        }
        #[unsafe(no_mangle)]
        unsafe extern "C" fn $tick(m: *mut $node, now: u64) -> c_int {
            unsafe { tick(m, now) }
        }
        #[unsafe(no_mangle)]
        unsafe extern "C" fn $next_end(m: *mut $node, time: *mut u64) -> c_int {
            unsafe { next_end(m, time) }
        }
        #[unsafe(no_mangle)]
        unsafe extern "C" fn $expiring(m: *mut $node, now: u64, notes: *mut [u32; 8]) -> c_int {
            unsafe { expiring(m, now, notes) }
        }
        #[unsafe(no_mangle)]
        unsafe extern "C" fn $send(m: *mut $node, to: u16, note: u32, now: u64, octets: *const u8, count: usize) -> c_int {
            unsafe { send(m, to, note, now, octets, count) }
        }
        #[unsafe(no_mangle)]
        unsafe extern "C" fn $hear(m: *mut $node, cost: u8, note: u32, now: u64, frame: *const u8, count: usize) -> c_int {
            unsafe { hear(m, cost, note, now, frame, count) }
        }
        #[unsafe(no_mangle)]
        unsafe extern "C" fn $broke(m: *mut $node, neighbour: u16) -> c_int {
            unsafe { broke(m, neighbour) }
        }
        #[unsafe(no_mangle)]
        unsafe extern "C" fn $address(m: *mut $node) -> u16 {
            unsafe { address(m) }
        }
    };
}

trait Lodging {
    const ROOM: usize;
}

impl<N: Node> Lodging for Lodged<N> {
    const ROOM: usize = room::<N>();
}

fn room_of_node<L: Lodging>() -> usize {
    L::ROOM
}

exported!(
    Meter, meter_room, meter_restart, meter_near, meter_random, meter_tick, meter_next_end, meter_expiring, meter_send, meter_hear, meter_broke,
    meter_address
);
exported!(
    Coordinator, coordinator_room, coordinator_restart, coordinator_near, coordinator_random, coordinator_tick, coordinator_next_end, coordinator_expiring,
    coordinator_send, coordinator_hear, coordinator_broke, coordinator_address
);

#[unsafe(no_mangle)]
unsafe extern "C" fn meter_open(
    at: *mut *mut Meter, memory: *mut c_void, size: usize, device: *const Device, eui: *const [u8; 8], psk: *const [u8; 16],
) -> c_int {
    let (Some(device), Some(eui), Some(psk), false) = (unsafe { (device.as_ref(), eui_of(eui), key_of(psk), at.is_null()) }) else {
        return MALFORMED;
    };
    unsafe { opened(at, open_in(memory, size, device, |store| open_meter(store, eui, psk))) }
}

#[unsafe(no_mangle)]
unsafe extern "C" fn meter_provision(m: *mut Meter, address: u16, index: u8, key: *const [u8; 16]) -> c_int {
    let given = Short::new(address).zip(KeyIndex::new(index)).zip(unsafe { key_of(key) });
    made!(m, |inner| given, |((address, active), key)| {
        let keys = if active.number() == 0 { [Some(key), None] } else { [None, Some(key)] };
        let answer = inner.node.provision(&Grant { address, active, keys });
        inner.done(answer)
    })
}

#[unsafe(no_mangle)]
unsafe extern "C" fn meter_join(m: *mut Meter, agent: u16, now: u64) -> c_int {
    made!(m, |inner| Short::new(agent), |agent| {
        let answer = inner.node.join(agent, now, &mut inner.out);
        inner.sent(answer)
    })
}

#[unsafe(no_mangle)]
unsafe extern "C" fn meter_leave(m: *mut Meter) -> c_int {
    unsafe {
        call(m, |inner| {
            let answer = inner.node.leave();
            inner.done(answer)
        })
    }
}

#[unsafe(no_mangle)]
unsafe extern "C" fn coordinator_open(
    at: *mut *mut Coordinator, memory: *mut c_void, size: usize, device: *const Device, eui: *const [u8; 8], key: *const [u8; 16],
) -> c_int {
    let (Some(device), Some(eui), Some(key), false) = (unsafe { (device.as_ref(), eui_of(eui), key_of(key), at.is_null()) }) else {
        return MALFORMED;
    };
    unsafe { opened(at, open_in(memory, size, device, |store| open_coordinator(store, eui, &key))) }
}

#[unsafe(no_mangle)]
unsafe extern "C" fn coordinator_allow(c: *mut Coordinator, eui: *const [u8; 8], psk: *const [u8; 16], address: *mut u16) -> c_int {
    let given = unsafe { eui_of(eui).zip(key_of(psk)).filter(|_| !address.is_null()) };
    made!(c, |inner| given, |(eui, psk)| {
        let answer = inner.node.allow(eui, &psk);
        if let Ok(short) = answer {
            // It is not null.
            address.write(short.number());
        }
        inner.done(answer)
    })
}

/// `struct coordinator_grant`
#[repr(C)]
struct CGrant {
    address: u16,
    index: u8,
    key: [u8; 16],
}

#[unsafe(no_mangle)]
unsafe extern "C" fn coordinator_depot(c: *mut Coordinator, eui: *const [u8; 8], psk: *const [u8; 16], grant: *mut CGrant) -> c_int {
    let given = unsafe { eui_of(eui).zip(key_of(psk)).filter(|_| !grant.is_null()) };
    made!(c, |inner| given, |(eui, psk)| {
        let answer = inner.node.depot(eui, &psk);
        if let Ok(given) = &answer {
            // A grant has a key at its active index.
            let key = given.keys[usize::from(given.active.number())].as_ref().map_or([0; 16], |it| it.0);
            // It is not null.
            grant.write(CGrant { address: given.address.number(), index: given.active.number(), key });
        }
        inner.done(answer)
    })
}

#[unsafe(no_mangle)]
unsafe extern "C" fn coordinator_rekey(c: *mut Coordinator, index: u8, key: *const [u8; 16]) -> c_int {
    let given = KeyIndex::new(index).zip(unsafe { key_of(key) });
    made!(c, |inner| given, |(index, key)| {
        let answer = inner.node.rekey(index, &key);
        inner.done(answer)
    })
}

#[unsafe(no_mangle)]
unsafe extern "C" fn coordinator_activate_self(c: *mut Coordinator, index: u8) -> c_int {
    made!(c, |inner| KeyIndex::new(index), |index| {
        let answer = inner.node.activate_self(index);
        inner.done(answer)
    })
}

#[unsafe(no_mangle)]
unsafe extern "C" fn coordinator_challenge(c: *mut Coordinator, eui: *const [u8; 8], now: u64) -> c_int {
    made!(c, |inner| eui_of(eui), |eui| {
        let answer = inner.node.challenge(eui, now, &mut inner.out);
        let ended = inner.sent(answer);
        if ended.status == DONE {
            draw(inner);
        }
        ended
    })
}

#[unsafe(no_mangle)]
unsafe extern "C" fn coordinator_activate(c: *mut Coordinator, eui: *const [u8; 8], index: u8, now: u64) -> c_int {
    let given = unsafe { eui_of(eui) }.zip(KeyIndex::new(index));
    made!(c, |inner| given, |(eui, index)| {
        let answer = inner.node.activate(eui, index, now, &mut inner.out);
        inner.sent(answer)
    })
}

#[unsafe(no_mangle)]
unsafe extern "C" fn coordinator_kick(c: *mut Coordinator, eui: *const [u8; 8]) -> c_int {
    made!(c, |inner| eui_of(eui), |eui| {
        let answer = inner.node.kick(eui, &mut inner.out);
        inner.sent(answer)
    })
}
