//! The macros that take a handle or an allocator.

#[macro_export]
macro_rules! format {
    (in $alloc:expr; $($text:tt)*) => { $crate::string::formatted($alloc, ::core::format_args!($($text)*)) };
}

#[macro_export]
macro_rules! assert {
    ($rt:expr; $($rest:tt)*) => {{ let _ = &$rt; ::core::assert!($($rest)*) }};
}

#[macro_export]
macro_rules! assert_eq {
    ($rt:expr; $($rest:tt)*) => {{ let _ = &$rt; ::core::assert_eq!($($rest)*) }};
}

#[macro_export]
macro_rules! assert_ne {
    ($rt:expr; $($rest:tt)*) => {{ let _ = &$rt; ::core::assert_ne!($($rest)*) }};
}

#[macro_export]
macro_rules! panic {
    ($rt:expr; $($rest:tt)*) => {{ let _ = &$rt; ::core::panic!($($rest)*) }};
}

/// Stops with the name of a public call and of the clause that its caller broke. The text is one literal, so that a panic handler can print it without the
/// formatter.
#[macro_export]
macro_rules! required {
    ($holds:expr, $clause:literal) => {
        if !($holds) {
            ::core::panic!(::core::concat!("its contract does not allow this call: ", $clause))
        }
    };
}

/// The entry by which C begins a program that begins in a function of this crate, and the program's memory.
#[macro_export]
macro_rules! program {
    ($main:ident) => {
        #[cfg(not(test))]
        mod entry {
            #[global_allocator]
            static MEMORY: $crate::hosted::Memory = $crate::hosted::Memory;

            #[unsafe(export_name = "main")]
            extern "C" fn main(count: ::core::ffi::c_int, words: *const *const ::core::ffi::c_char) -> ::core::ffi::c_int {
                // It is C that calls this.
                unsafe { $crate::hosted::enter(count, words, super::$main) }
            }
        }
    };
}
