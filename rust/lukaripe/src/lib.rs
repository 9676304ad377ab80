//! Layout arithmetic: sizes, padding, casts and conversions of records that end in a run of elements.
//!
//! The work is done by proved functions, which have the same names in C. They take any numbers and any bytes, and
//! refuse what they cannot use: an error is a [`Refusal`], and of a list of members, records or counts or of a
//! description a [`Refused`], which also says where. All numbers are unsigned and 64 bits wide; [`bits32`] has the same
//! for machines with 32-bit words.
//!
//! ```
//! use lukaripe::{for_repr_c_struct, Cast, CastType, Layout};
//!
//! // #[repr(C)]
//! // struct Message { id: [u32; 2], kind: u8, text: [u8] }
//! let members = [Layout::of::<[u32; 2]>(), Layout::of::<u8>(), Layout::of_slice::<u8>()];
//! let message = for_repr_c_struct(None, None, &members)?;
//! assert_eq!(message.align, 4);
//!
//! // How large a message is, and how much of it is padding.
//! let text = message.trailing().expect("the last member is a slice");
//! assert_eq!(text.offset, 9);
//! assert_eq!(text.size_for_elems(4)?, 16);
//! assert_eq!(text.padding_for_elems(4)?, 3);
//! assert_eq!(text.size_for_elems(u64::MAX).unwrap_err().greatest, Some(u64::MAX - 12));
//!
//! // How many bytes of text a buffer of 30 bytes has room for, and where the message ends.
//! let cast = message.validate_cast_and_convert_metadata(0x1000, 30, CastType::Prefix)?;
//! assert_eq!(cast, Cast { count: 19, split: 28 });
//! # Ok::<(), lukaripe::Refused>(())
//! ```
//!
//! - [`Layout`]: the layout of a type, made of numbers, of a Rust type or of members ([`for_repr_c_struct`], and
//!   [`for_repr_c_struct_strict`], which refuses what the Rust Reference forbids); [`for_repr_c_struct_places`] also
//!   says where each member is placed, and [`Working`] takes them one by one.
//! - [`Layout::read`]: the layout of a type that is described by bytes, types inside types; [`Layout::for_array`] and
//!   [`Layout::for_slice_of`]: arrays and slices of a layout; [`lengthen_counts`] and [`shorten_counts`]: a description
//!   with the member counts of all structs in two bytes, or in one.
//! - [`Trailing`]: the run of elements at the end of a layout, its sizes and its padding; [`Trailing::sizes_agree`] and
//!   [`NormalForm`]: whether two have the same sizes; [`Trailing::padding_of_counts`]: how much of the sizes at a list
//!   of counts is padding.
//! - [`Layout::validate_cast_and_convert_metadata`]: whether bytes hold such a record, and with how many elements.
//! - [`cases`]: every short list of members under every packing, to test compositions with.
//! - [`CastParams`]: whether one record may be read as another, and with how many elements; [`convert_and_cast`];
//!   [`Mode`]: by which comparison of sizes.
//! - [`Layout::front`]: the bytes of a record read in place, from a map or from a spare copy of it.
//! - [`Layout::to_bytes`] and [`Layout::from_bytes`]: layouts as records of 48 bytes; [`Layout::to_short_bytes`] and
//!   [`Layout::from_short_bytes`]: as short records of 32; [`records_to_short`] and [`records_from_short`]: lists of
//!   either moved to the other form.

#![no_std]
#![deny(missing_docs)]
// The sources of words/ are compiled at both widths, and what is a conversion at one is none at the other.
#![allow(clippy::duplicate_mod, clippy::useless_conversion)]

extern crate alloc;

pub mod bits32;

// ---- what has no width ----

mod cases;
mod choices;
mod fraction;
mod moves;
mod refusal;
mod tags;

pub use cases::{write_cases, CASES_LENGTH, CASE_LENGTH, LONGEST_LIST};
pub use choices::{CastType, Mode};
pub use fraction::Fraction;
pub use moves::{records_from_short, records_from_short_vec, records_to_short, records_to_short_vec};
pub use moves::{RECORD_LENGTH, SHORT_RECORD_LENGTH};
pub use refusal::{Refusal, Refused, Result, UnknownRefusal};
pub use tags::{DESCRIPTION_DEPTH, TAG_ARRAY, TAG_LONG_STRUCT, TAG_SLICE, TAG_STRUCT};

// ---- what is of this machine, and so has 64 bits ----

mod types;

pub use types::NoAllocLayout;

// ---- what has the width, here and in bits32.rs ----

mod exports;
mod shapes;
mod words;

pub(crate) type Word = u64;
pub(crate) type NonZeroWord = core::num::NonZeroU64;

pub use words::*;

/// The examples of README.md are tested too.
#[cfg(doctest)]
#[doc = include_str!("../README.md")]
struct Readme;
