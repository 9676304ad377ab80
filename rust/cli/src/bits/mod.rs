//! What speaks of numbers. It is compiled by bits64.rs for words of 64 bits and by bits32.rs for words of 32: the one
//! above says what a `Word` is, and which part of the library is meant.

use super::{library, NonZeroWord, Word};

mod described;
mod form;
mod member;
mod placed;
mod sizes;
mod types;

pub mod agree;
pub mod cases;
pub mod cast;
pub mod convert;
pub mod describe;
pub mod layout;
pub mod normal;
pub mod rewrite;
pub mod share;
