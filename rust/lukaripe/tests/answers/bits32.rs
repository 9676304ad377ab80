//! The functions with words of 32 bits, by the sources of 64.

use lukaripe::bits32 as library;
use std::num::NonZeroU32 as NonZeroWord;

type Word = u32;

#[path = "bits/mod.rs"]
mod bits;
pub use bits::answers;
