//! Memory that the caller of an opening lends. A node takes its own when it is opened, and gives none back.
use core::alloc::{GlobalAlloc, Layout};
use core::ptr::null_mut;
use core::sync::atomic::{AtomicBool, AtomicPtr, AtomicUsize, Ordering::Relaxed, Ordering::SeqCst};

struct Lent {
    next: AtomicPtr<u8>,
    left: AtomicUsize,
    is_opening: AtomicBool,
}

#[global_allocator]
static LENT: Lent = Lent { next: AtomicPtr::new(null_mut()), left: AtomicUsize::new(0), is_opening: AtomicBool::new(false) };

// Only the task that opens a node takes memory, and `lending` lets one at a time do so.
unsafe impl GlobalAlloc for Lent {
    unsafe fn alloc(&self, layout: Layout) -> *mut u8 {
        let next = self.next.load(Relaxed);
        let skipped = next.align_offset(layout.align());
        let Some(size) = layout.size().checked_add(skipped).filter(|it| !next.is_null() && *it <= self.left.load(Relaxed)) else {
            return null_mut();
        };
        self.left.store(self.left.load(Relaxed) - size, Relaxed);
        self.next.store(next.wrapping_add(size), Relaxed);
        next.wrapping_add(skipped)
    }

    unsafe fn dealloc(&self, _: *mut u8, _: Layout) {}
}

/// Opens a node over the octets from `start` on; None where another task opens one now.
pub fn lending<T>(start: *mut u8, count: usize, open: impl FnOnce() -> T) -> Option<T> {
    if LENT.is_opening.swap(true, SeqCst) {
        return None;
    }
    LENT.next.store(start, Relaxed);
    LENT.left.store(count, Relaxed);
    let opened = open();
    LENT.next.store(null_mut(), Relaxed);
    LENT.left.store(0, Relaxed);
    LENT.is_opening.store(false, SeqCst);
    Some(opened)
}
