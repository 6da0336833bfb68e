//! The crate `toml`, whose values take memory by Rattle's allocator there. The reader is that of `toml`; what it reads is copied into values of these types.
#![no_std]
extern crate alloc as heap;

pub mod de;
mod depth;
mod value;

pub use value::{Table, Value};

use de::Error;
use rattle_std::alloc::Global;

/// The table that a text is.
pub fn table_from_str(alloc: Global, text: &str) -> Result<Table, Error> {
    if let Some(place) = depth::too_deep(text.as_bytes()) {
        return Err(Error::too_deep(place));
    }
    // Read as a value: of a text that is read as a table `toml` 0.5 lets a key stand twice.
    match real::from_str(text) {
        Ok(real::Value::Table(table)) => value::table(alloc, table).map_err(|_| Error::memory()),
        Ok(_) => Err(Error::no_value()),
        Err(error) => Err(Error::new(text, &error)),
    }
}
