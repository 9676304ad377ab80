//! The width of the numbers that are handed over and answered, which is chosen once, by `--cfg bits32`. Cases hold them
//! as numbers of 64 bits at either: the fields of records and the lengths of what is lent have no other width.

// A program takes what it needs.
#![allow(dead_code)]

#[cfg(not(bits32))]
pub type Word = u64;
#[cfg(bits32)]
pub type Word = u32;

pub const BITS: u64 = Word::BITS as u64;

/// The greatest number.
pub const M: u64 = Word::MAX as u64;

/// The greatest power of two.
pub const TOP: u64 = 1 << (BITS - 1);

/// Whether some numbers of a record or a description do not fit.
pub const NARROW: bool = BITS < 64;

/// A number that is handed over. It is never cut off.
pub fn word(number: u64) -> Word {
    Word::try_from(number).expect("the number passes the width")
}
