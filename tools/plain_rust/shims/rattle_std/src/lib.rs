//! What exported code needs of Rattle's `std`, over Rust's `core` and `alloc`: an allocation that can fail, and handles.
#![no_std]

extern crate alloc as heap;
#[cfg(any(test, feature = "std"))]
extern crate std as host;

pub use core::*;

pub mod alloc;
pub mod boxed;
pub mod collections;
#[cfg(feature = "std")]
pub mod hosted;
mod macros;
pub mod num;
pub mod simd;
pub mod string;
pub mod test;
pub mod vec;

/// The names that Rattle has everywhere and `core` has not.
pub mod dialect {
    pub use crate::boxed::Box;
    pub use crate::process::{AllocGlobal, HostRuntime};
    pub use crate::string::String;
    pub use crate::vec::{IteratorExt, SliceExt, Vec};
}

pub mod process {
    /// The right to end the process, as a test does that fails.
    pub trait Abort {}

    /// Stands for the runtime, with the words that C gave the program.
    #[cfg_attr(not(feature = "std"), allow(dead_code))]
    pub struct HostRuntime {
        pub(crate) count: usize,
        pub(crate) words: *const *const core::ffi::c_char,
    }

    impl HostRuntime {
        /// The handle of this process, without words.
        pub fn of_process() -> HostRuntime {
            HostRuntime { count: 0, words: core::ptr::null() }
        }

        pub fn alloc(&self) -> crate::alloc::Global {
            crate::alloc::Global
        }
    }

    impl Abort for HostRuntime {}

    /// The right to take memory.
    pub trait AllocGlobal {
        fn alloc(&self) -> crate::alloc::Global {
            crate::alloc::Global
        }
    }

    impl AllocGlobal for HostRuntime {}

    /// How the program ended.
    #[cfg(feature = "std")]
    pub struct ExitCode(pub(crate) u8);

    #[cfg(feature = "std")]
    impl ExitCode {
        pub const SUCCESS: ExitCode = ExitCode(0);
        pub const FAILURE: ExitCode = ExitCode(1);
    }

    #[cfg(feature = "std")]
    impl From<u8> for ExitCode {
        fn from(status: u8) -> ExitCode {
            ExitCode(status)
        }
    }
}

/// The streams of std.
#[cfg(feature = "std")]
pub mod io {
    pub use host::io::*;
}

/// The two traits that a stream without std would have.
#[cfg(not(feature = "std"))]
pub mod io {
    #[derive(Debug)]
    pub struct Error;

    pub trait Read {
        fn read(&mut self, buf: &mut [u8]) -> Result<usize, Error>;
    }

    pub trait Write {
        fn write(&mut self, buf: &[u8]) -> Result<usize, Error>;
    }
}

#[cfg(feature = "std")]
pub mod env {
    pub use crate::hosted::args;
}
