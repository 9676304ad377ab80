//! The exports at the width that was chosen. Numbers have 64 bits here at either, and those of 32 bits are widened and
//! narrowed on the way, so that all that calls them is said once. A program takes those that it calls.

#![allow(dead_code, unused_imports)]

#[path = "../lukaripe/src/exports.rs"]
mod bits64;

#[cfg(not(bits32))]
pub use bits64::{Words as Lent, *};

#[cfg(bits32)]
#[path = "../lukaripe/src/exports32.rs"]
mod bits32;
#[cfg(bits32)]
#[path = "narrowed.rs"]
mod narrowed;

#[cfg(bits32)]
pub use bits32::Words as Lent;
#[cfg(bits32)]
pub use bits64::{lukaripe_records_from_short, lukaripe_records_to_short, lukaripe_write_cases};
#[cfg(bits32)]
pub use bits64::{Carried, Layout, Told, Trailing, Words};
#[cfg(bits32)]
pub use narrowed::*;
