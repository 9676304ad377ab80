//! The exports of 32 bits on numbers of 64: what is handed over must fit, and what is told is widened. Slices and
//! layouts that are lent go through as they are.

use super::bits32::{self, Moved, Placed, Serving, Share};
use super::bits64::{Carried, CastParams, Layout, Told, Trailing, Words};
use crate::width::word;

// ---- what is handed over ----

trait Narrows {
    type Narrow;

    fn narrow(self) -> Self::Narrow;
}

impl Narrows for u64 {
    type Narrow = u32;

    fn narrow(self) -> u32 {
        word(self)
    }
}

impl<const N: usize> Narrows for Words<N> {
    type Narrow = bits32::Words<N>;

    fn narrow(self) -> bits32::Words<N> {
        bits32::Words(self.0.map(word))
    }
}

macro_rules! as_it_is {
    ($($type:ty),*) => {
        $(impl Narrows for $type {
            type Narrow = $type;

            fn narrow(self) -> $type {
                self
            }
        })*
    };
}
as_it_is!(bool, usize, *const u8, *mut u8, *const u32, *mut u32);

impl<'a> Narrows for &'a mut bits32::Layout {
    type Narrow = &'a mut bits32::Layout;

    fn narrow(self) -> &'a mut bits32::Layout {
        self
    }
}

// ---- what is told ----

trait Widens {
    type Wide;

    fn widen(self) -> Self::Wide;
}

/// A bool, or a refusal alone.
macro_rules! as_it_was {
    ($($type:ty),*) => {
        $(impl Widens for $type {
            type Wide = $type;

            fn widen(self) -> $type {
                self
            }
        })*
    };
}
as_it_was!(u8, u64);

impl<const N: usize> Widens for bits32::Told<N> {
    type Wide = Told<N>;

    fn widen(self) -> Told<N> {
        Told { refusal: self.refusal, values: self.values.map(u64::from) }
    }
}

impl Widens for Placed {
    type Wide = Told<7>;

    fn widen(self) -> Told<7> {
        let [align, kind, size_base, offset, elem_size, word] = self.layout.map(u64::from);
        Told { refusal: self.refusal, values: [self.place, align, kind, size_base, offset, elem_size, word] }
    }
}

impl Widens for Moved {
    type Wide = Told<2>;

    fn widen(self) -> Told<2> {
        Told { refusal: self.refusal, values: [self.place, self.written] }
    }
}

impl Widens for Share {
    type Wide = Told<7>;

    fn widen(self) -> Told<7> {
        let padding = [self.padding_numerator, self.padding_denominator].map(u64::from);
        let mean = [self.mean_numerator.into(), self.mean_denominator];
        let values = [self.place, padding[0], padding[1], mean[0], mean[1], self.greatest.into(), self.index];
        Told { refusal: self.refusal, values }
    }
}

impl Widens for Serving {
    type Wide = Told<4>;

    fn widen(self) -> Told<4> {
        let [serves, count, split] = [self.serves, self.count, self.split].map(u64::from);
        Told { refusal: self.map_refusal, values: [self.spare_refusal, serves, count, split] }
    }
}

impl Widens for bits32::Carried {
    type Wide = Carried;

    fn widen(self) -> Carried {
        let (computed, count) = (self.computed.widen(), self.count.widen());
        Carried { computed, count, first: self.first.widen(), second: self.second.widen() }
    }
}

// ---- the exports ----

macro_rules! narrowed {
    ($(fn $name:ident($($arg:ident: $type:ty),*) -> $told:ty;)*) => {
        $(pub fn $name($($arg: $type),*) -> $told {
            bits32::$name($($arg.narrow()),*).widen()
        })*
    };
}

narrowed! {
    fn lukaripe_is_power_of_two(align: u64) -> u8;
    fn lukaripe_padding_needed_for(len: u64, align: u64) -> Told<1>;
    fn lukaripe_round_down_to_next_multiple_of_alignment(n: u64, align: u64) -> Told<1>;
    fn lukaripe_max(a: u64, b: u64) -> Told<1>;
    fn lukaripe_min(a: u64, b: u64) -> Told<1>;
    fn lukaripe_rounding_new(align: u64, phase: u64) -> Told<1>;
    fn lukaripe_rounding_components(word: u64) -> Told<2>;
    fn lukaripe_rounding_align(word: u64) -> Told<1>;
    fn lukaripe_size_offset(layout: Trailing) -> Told<1>;
    fn lukaripe_max_trailing_bytes(layout: Trailing, available_bytes: u64) -> Told<1>;
    fn lukaripe_padding_for_elems(layout: Trailing, elems: u64) -> Told<1>;
    fn lukaripe_size_for_elems(layout: Trailing, elems: u64) -> Told<1>;
    fn lukaripe_advance(layout: Trailing, bytes: u64, elem_size: u64) -> Told<4>;
    fn lukaripe_has_same_size_sequence(layout: Trailing, other: Trailing) -> Told<1>;
    fn lukaripe_sizes_agree(first: Trailing, second: Trailing) -> Told<1>;
    fn lukaripe_normal_form(layout: Trailing) -> Told<3>;
    fn lukaripe_new_zst(repr_align: u64) -> Told<6>;
    fn lukaripe_for_type(size: u64, align: u64) -> Told<6>;
    fn lukaripe_for_unpadded_type(size: u64, align: u64) -> Told<6>;
    fn lukaripe_for_slice(size: u64, align: u64) -> Told<6>;
    fn lukaripe_for_array(elem: Layout, count: u64) -> Told<6>;
    fn lukaripe_for_slice_of(elem: Layout) -> Told<6>;
    fn lukaripe_extend(layout: Layout, field: Layout, repr_packed: u64) -> Told<6>;
    fn lukaripe_pad_to_align(layout: Layout) -> Told<6>;
    fn lukaripe_requires_static_padding(layout: Layout) -> Told<1>;
    fn lukaripe_requires_dynamic_padding(layout: Layout) -> Told<1>;
    fn lukaripe_scalar(code: u64) -> Told<6>;
    fn lukaripe_working_begin(repr_align: u64) -> Told<6>;
    fn lukaripe_working_add(working: &mut bits32::Layout, field: Layout, repr_packed: u64) -> u64;
    fn lukaripe_validate_cast_and_convert_metadata(layout: Layout, addr: u64, bytes_len: u64, suffix: bool) -> Told<2>;
    fn lukaripe_metadata_for_exact_size(layout: Layout, size: u64) -> Told<1>;
    fn lukaripe_size_sequences_match(src: Trailing, dst: Trailing, dst_base: u64) -> Told<1>;
    fn lukaripe_size_sequences_match_full(src: Trailing, dst: Trailing, dst_base: u64) -> Told<1>;
    fn lukaripe_try_compute(src: Layout, dst: Layout) -> Told<4>;
    fn lukaripe_try_compute_full(src: Layout, dst: Layout) -> Told<4>;
    fn lukaripe_cast_metadata(params: CastParams, src_meta: u64) -> Told<1>;
    fn lukaripe_convert_and_cast(
        src: Layout,
        dst: Layout,
        src_meta: u64,
        addr: u64,
        bytes_len: u64,
        more_len: u64
    ) -> Carried;
    fn lukaripe_convert_and_cast_full(
        src: Layout,
        dst: Layout,
        src_meta: u64,
        addr: u64,
        bytes_len: u64,
        more_len: u64
    ) -> Carried;
}

/// The lengths are of bytes, and stay as they are.
pub fn lukaripe_which_serves(layout: Layout, map_addr: u64, map_len: u64, spare_addr: u64, spare_len: u64) -> Told<4> {
    bits32::lukaripe_which_serves(layout.narrow(), word(map_addr), map_len, word(spare_addr), spare_len).widen()
}

// SAFETY of each: the caller lends as many bytes and numbers as it says. They are `extern`, as those of 64 bits, so
// that either can be handed to what calls one of several.
macro_rules! narrowed_unsafe {
    ($(fn $name:ident($($arg:ident: $type:ty),*) -> $told:ty;)*) => {
        $(pub unsafe extern "C" fn $name($($arg: $type),*) -> $told {
            unsafe { bits32::$name($($arg.narrow()),*) }.widen()
        })*
    };
}

narrowed_unsafe! {
    fn lukaripe_padding_of_counts(layout: Trailing, counts: *const u32, counts_len: usize) -> Told<7>;
    fn lukaripe_decode(record: *const u8, len: usize) -> Told<6>;
    fn lukaripe_encode(layout: Layout, out: *mut u8, len: usize) -> u64;
    fn lukaripe_compose(repr_align: u64, repr_packed: u64, members: *const u8, len: usize) -> Told<7>;
    fn lukaripe_for_repr_c_struct(repr_align: u64, repr_packed: u64, members: *const u8, len: usize) -> Told<7>;
    fn lukaripe_for_repr_c_struct_strict(repr_align: u64, repr_packed: u64, members: *const u8, len: usize) -> Told<7>;
    fn lukaripe_for_repr_c_struct_places(
        repr_align: u64,
        repr_packed: u64,
        members: *const u8,
        len: usize,
        places: *mut u32,
        places_len: usize,
        gaps: *mut u32,
        gaps_len: usize
    ) -> Told<7>;
    fn lukaripe_working_add_record(
        working: &mut bits32::Layout,
        member: *const u8,
        len: usize,
        repr_packed: u64
    ) -> u64;
    fn lukaripe_read(description: *const u8, len: usize) -> Told<7>;
    fn lukaripe_decode_short(record: *const u8, len: usize) -> Told<6>;
    fn lukaripe_encode_short(layout: Layout, out: *mut u8, len: usize) -> u64;
    fn lukaripe_lengthen_counts(description: *const u8, len: usize, out: *mut u8, out_len: usize) -> Told<2>;
    fn lukaripe_shorten_counts(description: *const u8, len: usize, out: *mut u8, out_len: usize) -> Told<2>;
}
