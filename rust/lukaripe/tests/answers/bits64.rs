//! The functions with words of 64 bits.

use lukaripe as library;
use std::num::NonZeroU64 as NonZeroWord;

type Word = u64;

#[path = "bits/mod.rs"]
mod bits;
pub use bits::answers;
