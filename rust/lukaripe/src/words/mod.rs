//! What has the width. It is compiled at the crate root for 64 bits and in bits32.rs for 32: the module above says what
//! a `Word` is, and has the exports at this width and what has none.

use super::*;

mod case;
mod cast;
mod compose;
mod convert;
mod describe;
mod front;
mod full;
mod helpers;
mod layout;
mod no_size;
mod record;
mod rewrite;
mod rounding;
mod scalar;
mod share;
mod short;
mod told;
mod trailing;
mod working;

pub use case::{cases, Case};
pub use cast::Cast;
pub use compose::{compose, compose_records, for_repr_c_struct, for_repr_c_struct_records};
pub use compose::{for_repr_c_struct_places, for_repr_c_struct_places_into, for_repr_c_struct_places_records, Placed};
pub use compose::{for_repr_c_struct_strict, for_repr_c_struct_strict_records};
pub use convert::{convert_and_cast, size_sequences_match, Carried, CastParams};
pub use front::Serving;
pub use full::{convert_and_cast_in, size_sequences_match_in, NormalForm};
pub use helpers::{is_power_of_two, max, min, padding_needed_for, round_down_to_next_multiple_of_alignment};
pub use layout::{Layout, SizeInfo};
pub use no_size::NoSize;
pub use rewrite::{lengthen_counts, lengthen_counts_vec, shorten_counts, shorten_counts_vec};
pub use rounding::RoundingAlignAndPhase;
pub use scalar::Scalar;
pub use share::PaddingShare;
pub use trailing::Trailing;
pub use working::Working;
