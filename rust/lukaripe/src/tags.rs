//! The bytes that a description is made of.

#[cfg(doc)]
use crate::Layout;

/// The tag of an array in a description ([`Layout::read`]).
pub const TAG_ARRAY: u8 = 16;

/// The tag of a struct.
pub const TAG_STRUCT: u8 = 17;

/// The tag of a slice.
pub const TAG_SLICE: u8 = 18;

/// The tag of a struct whose member count has two bytes.
pub const TAG_LONG_STRUCT: u8 = 19;

/// As many structs, arrays and slices may be open at once in a description.
pub const DESCRIPTION_DEPTH: usize = 16;
