//! The crate `rand_core`, by another name of a call there.
#![no_std]

pub mod utils {
    /// A generator with words of this kind.
    pub trait NextWord<W> {
        fn next_word(&mut self) -> W;
    }

    impl<R: real::RngCore> NextWord<u32> for R {
        fn next_word(&mut self) -> u32 {
            self.next_u32()
        }
    }
}
