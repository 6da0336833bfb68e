//! What a stop does: a call that its contract does not allow, or a slip of this library. C resets the board, or ends the program.

unsafe extern "C" {
    fn meter_stop(why: *const u8, count: usize) -> !;
}

#[panic_handler]
fn stop(why: &core::panic::PanicInfo) -> ! {
    let text = why.message().as_str().unwrap_or("a check of the code failed");
    // It does not return: see meter.h.
    unsafe { meter_stop(text.as_ptr(), text.len()) }
}

/// What the libraries of a host, which were built to unwind, name. Nothing here unwinds.
#[cfg(not(target_os = "none"))]
#[unsafe(no_mangle)]
extern "C" fn rust_eh_personality() {}
