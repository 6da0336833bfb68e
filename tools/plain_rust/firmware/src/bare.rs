//! What a program needs where there is no operating system: memory, a stop, and here two calls that qemu-arm has.
use core::alloc::{GlobalAlloc, Layout};
use core::cell::UnsafeCell;
use core::sync::atomic::{AtomicUsize, Ordering};

core::arch::global_asm!(
    ".syntax unified", ".thumb",
    ".global sys_write", ".thumb_func", "sys_write:", "push {{r7, lr}}", "movs r7, #4", "svc #0", "pop {{r7, pc}}",
    ".global sys_exit", ".thumb_func", "sys_exit:", "movs r7, #1", "svc #0", "b sys_exit",
    ".global start", ".thumb_func", "start:", "bl program", "movs r0, #0", "b sys_exit",
);

unsafe extern "C" {
    fn sys_write(file: i32, octets: *const u8, count: usize) -> i32;
    fn sys_exit(status: i32) -> !;
}

/// Your board's log.
pub fn print(text: &str) {
    unsafe {
        sys_write(1, text.as_ptr(), text.len());
    }
}

#[panic_handler]
fn stop(why: &core::panic::PanicInfo) -> ! {
    print("stopped: ");
    print(why.message().as_str().unwrap_or("a check of the code failed"));
    print("\n");
    unsafe { sys_exit(101) }
}

/// Memory that is given out and never taken back: a node takes its own when it is opened, and no more.
pub struct Heap<const N: usize> {
    octets: UnsafeCell<[u64; N]>,
    /// How many octets were given out. Who sets it to 0 takes all of them back, where nothing lies in them any more.
    pub used: AtomicUsize,
}

impl<const N: usize> Heap<N> {
    /// With N times 8 octets.
    pub const fn new() -> Heap<N> {
        Heap { octets: UnsafeCell::new([0; N]), used: AtomicUsize::new(0) }
    }
}

// Only the atomic says what is given out.
unsafe impl<const N: usize> Sync for Heap<N> {}

unsafe impl<const N: usize> GlobalAlloc for Heap<N> {
    unsafe fn alloc(&self, layout: Layout) -> *mut u8 {
        let size = layout.size().next_multiple_of(8);
        let start = self.used.fetch_add(size, Ordering::Relaxed);
        if layout.align() > 8 || start + size > 8 * N {
            return core::ptr::null_mut();
        }
        unsafe { self.octets.get().cast::<u8>().add(start) }
    }

    unsafe fn dealloc(&self, _: *mut u8, _: Layout) {}
}
