//! A meter, a coordinator and frames for C: `libmeter.a`, whose calls `meter.h` declares.
//!
//! The nodes are those of the export; here are what C needs around them: memory that the caller lends, callbacks for store, modem and random values, and a number
//! for each refusal. Nothing of this is proved.
#![no_std]
#![allow(non_camel_case_types)]

mod calls;
mod codes;
mod device;
mod frames;
mod memory;
mod nodes;
mod stop;
