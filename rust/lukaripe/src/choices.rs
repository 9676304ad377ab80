//! What a call is asked for beside its numbers.

#[cfg(doc)]
use crate::Trailing;

/// Which end of the bytes a cast takes.
#[derive(Clone, Copy, Debug, PartialEq, Eq, Hash)]
pub enum CastType {
    /// The bytes from the start.
    Prefix,
    /// The bytes up to the end.
    Suffix,
}

/// By which comparison of sizes a conversion is found.
#[derive(Clone, Copy, Debug, PartialEq, Eq, Hash)]
pub enum Mode {
    /// By [`Trailing::has_same_size_sequence`], which zerocopy has: some equal sizes are not found. The functions
    /// without a mode have this one.
    Ported,
    /// By [`Trailing::sizes_agree`]. What the other mode converts this one does, with the same parameters.
    Full,
}
