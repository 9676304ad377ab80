//! The functions of include/lukaripe32.h, by the names that exports.rs has for 64 bits. A program takes those that it
//! calls.
//!
//! Moves between the forms of records and all short lists choose no width, and stand in exports.rs alone.

#![allow(dead_code)]

/// An answer of the C interface: the refusal number, then N numbers.
#[repr(C)]
#[derive(PartialEq)]
pub struct Told<const N: usize> {
    pub refusal: u64,
    pub values: [u32; N],
}

/// A struct of N numbers that is handed over or lent.
#[repr(C)]
#[derive(Clone, Copy)]
pub struct Words<const N: usize>(pub [u32; N]);

/// The answer of a composition or of a description: the place is 64 bits wide, as all places are.
#[repr(C)]
pub struct Placed {
    pub refusal: u64,
    pub place: u64,
    pub layout: [u32; 6],
}

/// The answer of a rewriting: the place and the number of bytes written.
#[repr(C)]
pub struct Moved {
    pub refusal: u64,
    pub place: u64,
    pub written: u64,
}

/// The padding over counts, which can be more than 32 bits can count: so the divisor of the mean and the index.
#[repr(C)]
pub struct Share {
    pub refusal: u64,
    pub place: u64,
    pub padding_numerator: u32,
    pub padding_denominator: u32,
    pub mean_numerator: u32,
    pub mean_denominator: u64,
    pub greatest: u32,
    pub index: u64,
}

/// Which of two buffers serves.
#[repr(C)]
pub struct Serving {
    pub map_refusal: u64,
    pub spare_refusal: u64,
    pub serves: u32,
    pub count: u32,
    pub split: u32,
}

/// What the four calls of a conversion and of two casts gave.
#[repr(C)]
#[derive(PartialEq)]
pub struct Carried {
    pub computed: Told<4>,
    pub count: Told<1>,
    pub first: Told<2>,
    pub second: Told<2>,
}

/// size_base, offset, elem_size, word.
pub type Trailing = Words<4>;
/// align, kind, size_base, offset, elem_size, word.
pub type Layout = Words<6>;
/// kind, offset_delta_elems, elem_multiple, dst_meta.
pub type CastParams = Words<4>;

// Safe to call, where no bytes are lent: each takes any numbers.
unsafe extern "C" {
    // ---- rounding helpers ----

    // A C bool, read as the byte that it is, so that a wrong one is seen.
    #[link_name = "lukaripe32_is_power_of_two"]
    pub safe fn lukaripe_is_power_of_two(align: u32) -> u8;
    #[link_name = "lukaripe32_padding_needed_for"]
    pub safe fn lukaripe_padding_needed_for(len: u32, align: u32) -> Told<1>;
    #[link_name = "lukaripe32_round_down_to_next_multiple_of_alignment"]
    pub safe fn lukaripe_round_down_to_next_multiple_of_alignment(n: u32, align: u32) -> Told<1>;
    #[link_name = "lukaripe32_max"]
    pub safe fn lukaripe_max(a: u32, b: u32) -> Told<1>;
    #[link_name = "lukaripe32_min"]
    pub safe fn lukaripe_min(a: u32, b: u32) -> Told<1>;

    // ---- the rounding word ----

    #[link_name = "lukaripe32_rounding_new"]
    pub safe fn lukaripe_rounding_new(align: u32, phase: u32) -> Told<1>;
    #[link_name = "lukaripe32_rounding_components"]
    pub safe fn lukaripe_rounding_components(word: u32) -> Told<2>;
    #[link_name = "lukaripe32_rounding_align"]
    pub safe fn lukaripe_rounding_align(word: u32) -> Told<1>;

    // ---- trailing layouts ----

    #[link_name = "lukaripe32_size_offset"]
    pub safe fn lukaripe_size_offset(layout: Trailing) -> Told<1>;
    #[link_name = "lukaripe32_max_trailing_bytes"]
    pub safe fn lukaripe_max_trailing_bytes(layout: Trailing, available_bytes: u32) -> Told<1>;
    #[link_name = "lukaripe32_padding_for_elems"]
    pub safe fn lukaripe_padding_for_elems(layout: Trailing, elems: u32) -> Told<1>;
    #[link_name = "lukaripe32_size_for_elems"]
    pub safe fn lukaripe_size_for_elems(layout: Trailing, elems: u32) -> Told<1>;
    #[link_name = "lukaripe32_advance"]
    pub safe fn lukaripe_advance(layout: Trailing, bytes: u32, elem_size: u32) -> Told<4>;
    #[link_name = "lukaripe32_has_same_size_sequence"]
    pub safe fn lukaripe_has_same_size_sequence(layout: Trailing, other: Trailing) -> Told<1>;
    #[link_name = "lukaripe32_sizes_agree"]
    pub safe fn lukaripe_sizes_agree(first: Trailing, second: Trailing) -> Told<1>;
    // size_base, elem_size, word.
    #[link_name = "lukaripe32_normal_form"]
    pub safe fn lukaripe_normal_form(layout: Trailing) -> Told<3>;

    // ---- padding over counts ----

    // The pointer may be NULL where the length is 0.
    #[link_name = "lukaripe32_padding_of_counts"]
    pub unsafe fn lukaripe_padding_of_counts(layout: Trailing, counts: *const u32, counts_len: usize) -> Share;

    // ---- whole layouts ----

    #[link_name = "lukaripe32_new_zst"]
    pub safe fn lukaripe_new_zst(repr_align: u32) -> Told<6>;
    #[link_name = "lukaripe32_for_type"]
    pub safe fn lukaripe_for_type(size: u32, align: u32) -> Told<6>;
    #[link_name = "lukaripe32_for_unpadded_type"]
    pub safe fn lukaripe_for_unpadded_type(size: u32, align: u32) -> Told<6>;
    #[link_name = "lukaripe32_for_slice"]
    pub safe fn lukaripe_for_slice(size: u32, align: u32) -> Told<6>;
    #[link_name = "lukaripe32_for_array"]
    pub safe fn lukaripe_for_array(elem: Layout, count: u32) -> Told<6>;
    #[link_name = "lukaripe32_for_slice_of"]
    pub safe fn lukaripe_for_slice_of(elem: Layout) -> Told<6>;
    #[link_name = "lukaripe32_extend"]
    pub safe fn lukaripe_extend(layout: Layout, field: Layout, repr_packed: u32) -> Told<6>;
    #[link_name = "lukaripe32_pad_to_align"]
    pub safe fn lukaripe_pad_to_align(layout: Layout) -> Told<6>;
    #[link_name = "lukaripe32_requires_static_padding"]
    pub safe fn lukaripe_requires_static_padding(layout: Layout) -> Told<1>;
    #[link_name = "lukaripe32_requires_dynamic_padding"]
    pub safe fn lukaripe_requires_dynamic_padding(layout: Layout) -> Told<1>;

    // ---- records, scalars and member lists ----

    #[link_name = "lukaripe32_decode"]
    pub unsafe fn lukaripe_decode(record: *const u8, len: usize) -> Told<6>;
    #[link_name = "lukaripe32_encode"]
    pub unsafe fn lukaripe_encode(layout: Layout, out: *mut u8, len: usize) -> u64;
    #[link_name = "lukaripe32_scalar"]
    pub safe fn lukaripe_scalar(code: u32) -> Told<6>;
    #[link_name = "lukaripe32_compose"]
    pub unsafe fn lukaripe_compose(repr_align: u32, repr_packed: u32, members: *const u8, len: usize) -> Placed;
    #[link_name = "lukaripe32_for_repr_c_struct"]
    pub unsafe fn lukaripe_for_repr_c_struct(
        repr_align: u32,
        repr_packed: u32,
        members: *const u8,
        len: usize,
    ) -> Placed;
    #[link_name = "lukaripe32_for_repr_c_struct_strict"]
    pub unsafe fn lukaripe_for_repr_c_struct_strict(
        repr_align: u32,
        repr_packed: u32,
        members: *const u8,
        len: usize,
    ) -> Placed;

    // The slices that are written may be NULL where their length is 0.
    #[link_name = "lukaripe32_for_repr_c_struct_places"]
    pub unsafe fn lukaripe_for_repr_c_struct_places(
        repr_align: u32,
        repr_packed: u32,
        members: *const u8,
        len: usize,
        places: *mut u32,
        places_len: usize,
        gaps: *mut u32,
        gaps_len: usize,
    ) -> Placed;

    // What is lent is altered in its place.
    #[link_name = "lukaripe32_working_begin"]
    pub safe fn lukaripe_working_begin(repr_align: u32) -> Told<6>;
    #[link_name = "lukaripe32_working_add"]
    pub safe fn lukaripe_working_add(working: &mut Layout, field: Layout, repr_packed: u32) -> u64;
    #[link_name = "lukaripe32_working_add_record"]
    pub unsafe fn lukaripe_working_add_record(
        working: &mut Layout,
        member: *const u8,
        len: usize,
        repr_packed: u32,
    ) -> u64;

    // ---- descriptions ----

    #[link_name = "lukaripe32_read"]
    pub unsafe fn lukaripe_read(description: *const u8, len: usize) -> Placed;

    // ---- short records ----

    #[link_name = "lukaripe32_decode_short"]
    pub unsafe fn lukaripe_decode_short(record: *const u8, len: usize) -> Told<6>;
    #[link_name = "lukaripe32_encode_short"]
    pub unsafe fn lukaripe_encode_short(layout: Layout, out: *mut u8, len: usize) -> u64;

    // ---- descriptions rewritten ----

    #[link_name = "lukaripe32_lengthen_counts"]
    pub unsafe fn lukaripe_lengthen_counts(description: *const u8, len: usize, out: *mut u8, out_len: usize) -> Moved;
    #[link_name = "lukaripe32_shorten_counts"]
    pub unsafe fn lukaripe_shorten_counts(description: *const u8, len: usize, out: *mut u8, out_len: usize) -> Moved;

    // ---- casts ----

    #[link_name = "lukaripe32_validate_cast_and_convert_metadata"]
    pub safe fn lukaripe_validate_cast_and_convert_metadata(
        layout: Layout,
        addr: u32,
        bytes_len: u32,
        suffix: bool,
    ) -> Told<2>;
    #[link_name = "lukaripe32_metadata_for_exact_size"]
    pub safe fn lukaripe_metadata_for_exact_size(layout: Layout, size: u32) -> Told<1>;
    // The lengths are of bytes that 64 bits may count.
    #[link_name = "lukaripe32_which_serves"]
    pub safe fn lukaripe_which_serves(
        layout: Layout,
        map_addr: u32,
        map_len: u64,
        spare_addr: u32,
        spare_len: u64,
    ) -> Serving;

    // ---- conversions ----

    #[link_name = "lukaripe32_size_sequences_match"]
    pub safe fn lukaripe_size_sequences_match(src: Trailing, dst: Trailing, dst_base: u32) -> Told<1>;
    #[link_name = "lukaripe32_size_sequences_match_full"]
    pub safe fn lukaripe_size_sequences_match_full(src: Trailing, dst: Trailing, dst_base: u32) -> Told<1>;
    #[link_name = "lukaripe32_try_compute"]
    pub safe fn lukaripe_try_compute(src: Layout, dst: Layout) -> Told<4>;
    #[link_name = "lukaripe32_try_compute_full"]
    pub safe fn lukaripe_try_compute_full(src: Layout, dst: Layout) -> Told<4>;
    #[link_name = "lukaripe32_cast_metadata"]
    pub safe fn lukaripe_cast_metadata(params: CastParams, src_meta: u32) -> Told<1>;
    #[link_name = "lukaripe32_convert_and_cast"]
    pub safe fn lukaripe_convert_and_cast(
        src: Layout,
        dst: Layout,
        src_meta: u32,
        addr: u32,
        bytes_len: u32,
        more_len: u32,
    ) -> Carried;
    #[link_name = "lukaripe32_convert_and_cast_full"]
    pub safe fn lukaripe_convert_and_cast_full(
        src: Layout,
        dst: Layout,
        src_meta: u32,
        addr: u32,
        bytes_len: u32,
        more_len: u32,
    ) -> Carried;
}
