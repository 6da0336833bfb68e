//! The frames of `frames_c`, for C of any target: a slice is a pointer and a count.
use crate::calls::{octets_of, room_of};
use frames_c::{FramesHead, Refusal};

/// # Safety
/// As `frames.h` says.
#[unsafe(no_mangle)]
unsafe extern "C" fn frames_seal(
    key: *const u8, keys: usize, head: &FramesHead, payload: *const u8, payloads: usize, out: *mut u8, room: usize, written: &mut usize,
) -> u32 {
    let (Some(key), Some(payload), Some(out)) = (unsafe { (octets_of(key, keys), octets_of(payload, payloads), room_of(out, room)) }) else {
        *written = 0;
        return Refusal::Room.number();
    };
    frames_c::frames_seal(key, head, payload, out, written)
}

/// # Safety
/// As `frames.h` says.
#[unsafe(no_mangle)]
unsafe extern "C" fn frames_open(
    key: *const u8, keys: usize, frame: *const u8, frames: usize, payload: *mut u8, room: usize, written: &mut usize,
) -> u32 {
    let (Some(key), Some(frame), Some(payload)) = (unsafe { (octets_of(key, keys), octets_of(frame, frames), room_of(payload, room)) }) else {
        *written = 0;
        return Refusal::Room.number();
    };
    frames_c::frames_open(key, frame, payload, written)
}

/// # Safety
/// As `frames.h` says.
#[unsafe(no_mangle)]
unsafe extern "C" fn frames_read(frame: *const u8, frames: usize, head: &mut FramesHead, place: &mut u32) -> u32 {
    frames_c::frames_read(unsafe { octets_of(frame, frames) }.unwrap_or(&[]), head, place)
}
