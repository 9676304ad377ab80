//! The functions of include/lukaripe.h. A program takes those that it calls.

#![allow(dead_code)]

/// An answer of the C interface: the refusal number, then N numbers. Members that are all `uint64_t` are laid out and
/// passed as an array of them is, so one struct serves for all of the answers.
#[repr(C)]
#[derive(PartialEq)]
pub struct Told<const N: usize> {
    pub refusal: u64,
    pub values: [u64; N],
}

/// A struct of N numbers that is handed over, for the same reason.
#[repr(C)]
#[derive(Clone, Copy)]
pub struct Words<const N: usize>(pub [u64; N]);

/// What the four calls of a conversion and of two casts gave.
#[repr(C)]
#[derive(PartialEq)]
pub struct Carried {
    pub computed: Told<4>,
    pub count: Told<1>,
    pub first: Told<2>,
    pub second: Told<2>,
}

/// size_base, offset, elem_size, word.
pub type Trailing = Words<4>;
/// align, kind, size_base, offset, elem_size, word.
pub type Layout = Words<6>;
/// kind, offset_delta_elems, elem_multiple, dst_meta.
pub type CastParams = Words<4>;

// Safe to call, where no bytes are lent: each takes any numbers.
unsafe extern "C" {
    // ---- rounding helpers ----

    // A C bool, read as the byte that it is, so that a wrong one is seen.
    pub safe fn lukaripe_is_power_of_two(align: u64) -> u8;
    pub safe fn lukaripe_padding_needed_for(len: u64, align: u64) -> Told<1>;
    pub safe fn lukaripe_round_down_to_next_multiple_of_alignment(n: u64, align: u64) -> Told<1>;
    pub safe fn lukaripe_max(a: u64, b: u64) -> Told<1>;
    pub safe fn lukaripe_min(a: u64, b: u64) -> Told<1>;

    // ---- the rounding word ----

    pub safe fn lukaripe_rounding_new(align: u64, phase: u64) -> Told<1>;
    pub safe fn lukaripe_rounding_components(word: u64) -> Told<2>;
    pub safe fn lukaripe_rounding_align(word: u64) -> Told<1>;

    // ---- trailing layouts ----

    pub safe fn lukaripe_size_offset(layout: Trailing) -> Told<1>;
    pub safe fn lukaripe_max_trailing_bytes(layout: Trailing, available_bytes: u64) -> Told<1>;
    pub safe fn lukaripe_padding_for_elems(layout: Trailing, elems: u64) -> Told<1>;
    pub safe fn lukaripe_size_for_elems(layout: Trailing, elems: u64) -> Told<1>;
    pub safe fn lukaripe_advance(layout: Trailing, bytes: u64, elem_size: u64) -> Told<4>;
    pub safe fn lukaripe_has_same_size_sequence(layout: Trailing, other: Trailing) -> Told<1>;
    pub safe fn lukaripe_sizes_agree(first: Trailing, second: Trailing) -> Told<1>;
    // size_base, elem_size, word.
    pub safe fn lukaripe_normal_form(layout: Trailing) -> Told<3>;

    // ---- padding over counts: the values are the place, the two fractions, the greatest padding and its index ----

    // The pointer may be NULL where the length is 0.
    pub unsafe fn lukaripe_padding_of_counts(layout: Trailing, counts: *const u64, counts_len: usize) -> Told<7>;

    // ---- whole layouts ----

    pub safe fn lukaripe_new_zst(repr_align: u64) -> Told<6>;
    pub safe fn lukaripe_for_type(size: u64, align: u64) -> Told<6>;
    pub safe fn lukaripe_for_unpadded_type(size: u64, align: u64) -> Told<6>;
    pub safe fn lukaripe_for_slice(size: u64, align: u64) -> Told<6>;
    pub safe fn lukaripe_for_array(elem: Layout, count: u64) -> Told<6>;
    pub safe fn lukaripe_for_slice_of(elem: Layout) -> Told<6>;
    pub safe fn lukaripe_extend(layout: Layout, field: Layout, repr_packed: u64) -> Told<6>;
    pub safe fn lukaripe_pad_to_align(layout: Layout) -> Told<6>;
    pub safe fn lukaripe_requires_static_padding(layout: Layout) -> Told<1>;
    pub safe fn lukaripe_requires_dynamic_padding(layout: Layout) -> Told<1>;

    // ---- records, scalars and member lists: of a composition the first value is the place ----

    pub unsafe fn lukaripe_decode(record: *const u8, len: usize) -> Told<6>;
    pub unsafe fn lukaripe_encode(layout: Layout, out: *mut u8, len: usize) -> u64;
    pub safe fn lukaripe_scalar(code: u64) -> Told<6>;
    pub unsafe fn lukaripe_compose(repr_align: u64, repr_packed: u64, members: *const u8, len: usize) -> Told<7>;
    pub unsafe fn lukaripe_for_repr_c_struct(
        repr_align: u64,
        repr_packed: u64,
        members: *const u8,
        len: usize,
    ) -> Told<7>;
    pub unsafe fn lukaripe_for_repr_c_struct_strict(
        repr_align: u64,
        repr_packed: u64,
        members: *const u8,
        len: usize,
    ) -> Told<7>;

    // The slices that are written may be NULL where their length is 0.
    pub unsafe fn lukaripe_for_repr_c_struct_places(
        repr_align: u64,
        repr_packed: u64,
        members: *const u8,
        len: usize,
        places: *mut u64,
        places_len: usize,
        gaps: *mut u64,
        gaps_len: usize,
    ) -> Told<7>;

    // What is lent is altered in its place.
    pub safe fn lukaripe_working_begin(repr_align: u64) -> Told<6>;
    pub safe fn lukaripe_working_add(working: &mut Layout, field: Layout, repr_packed: u64) -> u64;
    pub unsafe fn lukaripe_working_add_record(
        working: &mut Layout,
        member: *const u8,
        len: usize,
        repr_packed: u64,
    ) -> u64;

    // ---- descriptions: the first value is the place ----

    pub unsafe fn lukaripe_read(description: *const u8, len: usize) -> Told<7>;

    // ---- short records: of a move the values are the place and the number of bytes written ----

    pub unsafe fn lukaripe_decode_short(record: *const u8, len: usize) -> Told<6>;
    pub unsafe fn lukaripe_encode_short(layout: Layout, out: *mut u8, len: usize) -> u64;

    // Either may be NULL where its length is 0.
    pub unsafe fn lukaripe_records_to_short(records: *const u8, len: usize, out: *mut u8, out_len: usize) -> Told<2>;
    pub unsafe fn lukaripe_records_from_short(records: *const u8, len: usize, out: *mut u8, out_len: usize) -> Told<2>;

    // ---- descriptions rewritten: the values are as those of a move ----

    pub unsafe fn lukaripe_lengthen_counts(description: *const u8, len: usize, out: *mut u8, out_len: usize)
        -> Told<2>;
    pub unsafe fn lukaripe_shorten_counts(description: *const u8, len: usize, out: *mut u8, out_len: usize) -> Told<2>;

    // ---- all short member lists ----

    pub unsafe fn lukaripe_write_cases(longest: u64, out: *mut u8, len: usize) -> Told<1>;

    // ---- casts ----

    pub safe fn lukaripe_validate_cast_and_convert_metadata(
        layout: Layout,
        addr: u64,
        bytes_len: u64,
        suffix: bool,
    ) -> Told<2>;
    pub safe fn lukaripe_metadata_for_exact_size(layout: Layout, size: u64) -> Told<1>;
    // The refusal is that of the map's cast; the values are the spare's, which serves, the count and the split.
    pub safe fn lukaripe_which_serves(
        layout: Layout,
        map_addr: u64,
        map_len: u64,
        spare_addr: u64,
        spare_len: u64,
    ) -> Told<4>;

    // ---- conversions ----

    pub safe fn lukaripe_size_sequences_match(src: Trailing, dst: Trailing, dst_base: u64) -> Told<1>;
    pub safe fn lukaripe_size_sequences_match_full(src: Trailing, dst: Trailing, dst_base: u64) -> Told<1>;
    pub safe fn lukaripe_try_compute(src: Layout, dst: Layout) -> Told<4>;
    pub safe fn lukaripe_try_compute_full(src: Layout, dst: Layout) -> Told<4>;
    pub safe fn lukaripe_cast_metadata(params: CastParams, src_meta: u64) -> Told<1>;
    pub safe fn lukaripe_convert_and_cast(
        src: Layout,
        dst: Layout,
        src_meta: u64,
        addr: u64,
        bytes_len: u64,
        more_len: u64,
    ) -> Carried;
    pub safe fn lukaripe_convert_and_cast_full(
        src: Layout,
        dst: Layout,
        src_meta: u64,
        addr: u64,
        bytes_len: u64,
        more_len: u64,
    ) -> Carried;
}
