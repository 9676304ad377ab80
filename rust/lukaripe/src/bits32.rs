//! The same for machines with 32-bit words.
//!
//! The names are those of the crate root, so that a width is chosen once, by `use`:
//!
//! ```
//! use lukaripe::bits32::{for_repr_c_struct, Cast, CastType, Layout, NoSize, Refusal, Scalar};
//!
//! // #[repr(C)]
//! // struct Message { time: u64, kind: u8, text: [u8] }
//! let [time, kind] = [Scalar::U64, Scalar::U8].map(Layout::scalar);
//! let message = for_repr_c_struct(None, None, &[time, kind, Layout::for_slice(1, 1)?])?;
//! assert_eq!(message.align, 4);
//!
//! let text = message.trailing().expect("the last member is a slice");
//! assert_eq!(text.offset, 9);
//! assert_eq!(text.size_for_elems(4)?, 16);
//! // The last count that has a size, and the next one.
//! let most = u32::MAX - 12;
//! assert_eq!(text.size_for_elems(most)?, u32::MAX - 3);
//! let none = NoSize { refusal: Refusal::NoSize, greatest: Some(most) };
//! assert_eq!(text.size_for_elems(most + 1), Err(none));
//!
//! let cast = message.validate_cast_and_convert_metadata(0x1000, 30, CastType::Prefix)?;
//! assert_eq!(cast, Cast { count: 19, split: 28 });
//! // The bytes may end at the greatest number, and not behind it.
//! let cast = message.validate_cast_and_convert_metadata(u32::MAX - 31, 31, CastType::Prefix)?;
//! assert_eq!(cast, Cast { count: 19, split: 28 });
//! let refused = message.validate_cast_and_convert_metadata(u32::MAX - 31, 32, CastType::Prefix);
//! assert_eq!(refused, Err(Refusal::AddressPassesMax));
//! # Ok::<(), lukaripe::Refused>(())
//! ```
//!
//! The examples at the items are those of 64 bits. What differs:
//!
//! # The greatest number
//!
//! All numbers that are handed over, lent or answered are [`u32`], so the greatest one is 2^32 - 1. What passes it is
//! refused for the causes that the root has for 2^64 - 1, and what is worked out modulo 2^64 there is so modulo 2^32.
//!
//! ```
//! use lukaripe::bits32::{padding_needed_for, Layout, Refusal, Refused, RoundingAlignAndPhase, Trailing};
//!
//! assert_eq!(padding_needed_for(u32::MAX, 8)?, 1);
//! assert_eq!(RoundingAlignAndPhase(u32::MAX).components()?, (1 << 31, (1 << 31) - 1));
//! assert_eq!(Layout::for_array(Layout::for_type(4, 4)?, 1 << 30), Err(Refusal::ArrayPassesMax));
//!
//! // Sizes that are accepted one by one, but not as a sum.
//! let word = RoundingAlignAndPhase::new(1, 0)?;
//! let half = Trailing { size_base: 1 << 31, offset: 0, elem_size: 1, size_rounding_align_and_phase: word };
//! assert_eq!(half.padding_of_counts(&[3])?.padding.to_string(), "2147483648/2147483651");
//! assert_eq!(half.padding_of_counts(&[3, 0]), Err(Refused { refusal: Refusal::SumPassesMax, place: 1 }));
//! # Ok::<(), Refused>(())
//! ```
//!
//! Places and indices in a slice are as at 64 bits, and so are the lengths of buffers: one that passes the greatest
//! number is refused and not cut off.
//!
//! ```
//! use lukaripe::bits32::{Cast, Layout, Refusal, Serving};
//!
//! let cast = Cast { count: 2, split: 8 };
//! let numbers = Layout::for_slice(4, 4)?;
//! assert_eq!(numbers.which_serves(0, 11, 16, 10), Serving::Map(cast));
//! let map = Refusal::AddressPassesMax;
//! assert_eq!(numbers.which_serves(0, 1 << 32, 16, 10), Serving::Spare { map, cast });
//! assert_eq!(numbers.which_serves(0, 1 << 32, 16, 1 << 32), Serving::Neither { map, spare: map });
//! # Ok::<(), Refusal>(())
//! ```
//!
//! # Scalars
//!
//! They are those of a target with such words, in descriptions too: u64 and f64 have 8 bytes but are aligned to 4, as
//! on x86, and usize has 4 bytes.
//!
//! ```
//! use lukaripe::bits32::{cases, for_repr_c_struct, for_repr_c_struct_places, Layout, Scalar, Working, TAG_STRUCT};
//! use std::num::NonZeroU32;
//!
//! let [long, word] = [Scalar::U64, Scalar::Usize].map(Layout::scalar);
//! assert_eq!((long.size(), long.align), (Some(8), 4));
//! assert_eq!((word.size(), word.align), (Some(4), 4));
//!
//! // #[repr(C)] struct Pair { kind: u8, length: u64 }
//! let pair = Layout::read(&[TAG_STRUCT, 0, 0, 2, 0, 3])?;
//! assert_eq!((pair.size(), pair.align), (Some(12), 4));
//! assert_eq!(lukaripe::Layout::read(&[TAG_STRUCT, 0, 0, 2, 0, 3])?.size(), Some(16));
//!
//! // #[repr(C)] struct Row { kind: u8, length: u64, next: usize }
//! let members = [Scalar::U8, Scalar::U64, Scalar::Usize].map(Layout::scalar);
//! let row = for_repr_c_struct_places(None, None, &members)?;
//! assert_eq!((row.places, row.gaps), (vec![0, 4, 12], vec![0, 3, 0]));
//!
//! // The same, typed member by member, under packing 2.
//! let mut packed = Working::begin(None, NonZeroU32::new(2))?;
//! for member in members {
//!     packed.add(member)?;
//! }
//! assert_eq!(packed.padded()?.size(), Some(14));
//!
//! // No struct of u8, u16, u32 and u64 is aligned to 8.
//! for case in cases(3)? {
//!     assert!(for_repr_c_struct(None, case.packing(), &case.members())?.align <= 4);
//! }
//! # Ok::<(), lukaripe::Refused>(())
//! ```
//!
//! # Numbers that do not fit
//!
//! Records keep words of 64 bits, in both of their forms, so that either width reads what the other has written. A
//! record is tested as it is at 64 bits; then [`Refusal::NumberPassesWidth`] comes where one of its numbers is above
//! 2^32 - 1. In a description it comes where an alignment or a packing is, at its byte.
//!
//! ```
//! use lukaripe::bits32::{for_repr_c_struct_records, lengthen_counts_vec, Layout, Refusal, Refused};
//! use lukaripe::bits32::{TAG_LONG_STRUCT, TAG_STRUCT};
//!
//! let small = lukaripe::Layout::for_type(1 << 31, 8)?.to_bytes()?;
//! assert_eq!(Layout::from_bytes(&small)?, Layout::for_type(1 << 31, 8)?);
//! assert_eq!(Layout::for_type(1 << 31, 8)?.to_bytes()?, small);
//!
//! let mut large = lukaripe::Layout::for_type(1 << 32, 8)?.to_bytes()?;
//! assert_eq!(Layout::from_bytes(&large), Err(Refusal::NumberPassesWidth));
//! let refused = Refused { refusal: Refusal::NumberPassesWidth, place: 1 };
//! assert_eq!(for_repr_c_struct_records(None, None, &[small, large].concat()), Err(refused));
//! // An alignment of 3 << 40 would be none at 64 bits either.
//! large[..8].copy_from_slice(&(3u64 << 40).to_le_bytes());
//! assert_eq!(Layout::from_bytes(&large), Err(Refusal::AlignNotPowerOfTwo));
//!
//! assert_eq!(Layout::read(&[TAG_STRUCT, 1 + 31, 0, 0])?.align, 1 << 31);
//! assert_eq!(Layout::read(&[TAG_STRUCT, 1 + 32, 0, 0]), Err(refused));
//! assert_eq!(lengthen_counts_vec(&[TAG_STRUCT, 1 + 31, 0, 0])?, [TAG_LONG_STRUCT, 1 + 31, 0, 0, 0]);
//! assert_eq!(lengthen_counts_vec(&[TAG_STRUCT, 1 + 32, 0, 0]), Err(refused));
//! # Ok::<(), Refused>(())
//! ```
//!
//! # What is not here, or the same
//!
//! Types and addresses of the machine that this runs on have no 32 bits: `Layout::of`, `Layout::of_slice`,
//! `Layout::front_of` and the layouts of `core::alloc` are at the root alone. A type is made of its numbers, as above,
//! and [`Layout::front`] takes the addresses.
//!
//! What has no width is the root's own: [`Refusal`], [`Refused`] and [`Result`], [`CastType`] and [`Mode`],
//! [`Fraction`], the lengths of records and the tags of descriptions, [`records_to_short`] and [`records_from_short`],
//! and [`write_cases`].

pub use crate::{records_from_short, records_from_short_vec, records_to_short, records_to_short_vec, write_cases};
pub use crate::{CastType, Fraction, Mode, Refusal, Refused, Result, UnknownRefusal};
pub use crate::{CASES_LENGTH, CASE_LENGTH, LONGEST_LIST, RECORD_LENGTH, SHORT_RECORD_LENGTH};
pub use crate::{DESCRIPTION_DEPTH, TAG_ARRAY, TAG_LONG_STRUCT, TAG_SLICE, TAG_STRUCT};

#[path = "exports32.rs"]
mod exports;
use exports as shapes;

pub(crate) type Word = u32;
pub(crate) type NonZeroWord = core::num::NonZeroU32;

// The examples in these sources are tested at 64 bits, once.
#[cfg(not(doctest))]
#[path = "words/mod.rs"]
mod words;
#[cfg(not(doctest))]
pub use words::*;
