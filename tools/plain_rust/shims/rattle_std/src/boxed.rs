//! `Box`, whose making can fail.
use crate::alloc::{AllocFailed, Allocator, Global};
use core::ops::{Deref, DerefMut};

/// Rust's `Box`, made only where there is memory for it.
pub struct Box<T>(heap::boxed::Box<T>);

impl<T> Box<T> {
    #[inline]
    pub fn new(alloc: Global, value: T) -> Result<Box<T>, AllocFailed<T>> {
        let Ok(place) = alloc.allocate(size_of::<T>(), align_of::<T>()) else {
            return Err(AllocFailed(value));
        };
        let place = place.cast::<T>();
        // The block is this value's alone, of its size and alignment, and came from the allocator that frees it.
        unsafe {
            place.write(value);
            Ok(Box(heap::boxed::Box::from_raw(place)))
        }
    }
}

impl<T> Deref for Box<T> {
    type Target = T;

    fn deref(&self) -> &T {
        &self.0
    }
}

impl<T> DerefMut for Box<T> {
    fn deref_mut(&mut self) -> &mut T {
        &mut self.0
    }
}
