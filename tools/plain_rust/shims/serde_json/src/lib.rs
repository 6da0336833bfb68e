//! The crate `serde_json`, whose text takes memory by Rattle's allocator there.
#![no_std]

use rattle_std::alloc::{AllocError, Global};
use rattle_std::string::String;
use serde::Serialize;

pub fn to_string<T: ?Sized + Serialize>(alloc: Global, value: &T) -> Result<String, AllocError> {
    let text = real::to_string(value).map_err(|_| AllocError)?;
    String::from_str(alloc, &text)
}
