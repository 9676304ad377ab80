//! The Rust as it is: a function each that is not inlined.

use crate::*;

macro_rules! functions {
    ($($name:ident($($input:ident: $type:ty),*) -> $answer:ty = $call:expr;)*) => {
        $(pub fn $name($($input: $type),*) -> $answer {
            $call
        })*
    };
}

functions! {
    is_power_of_two(align: usize) -> bool = align.is_power_of_two();
    padding_needed_for(len: usize, align: NonZeroUsize) -> usize = util::padding_needed_for(len, align);
    round_down_to_next_multiple_of_alignment(n: usize, align: NonZeroUsize) -> usize =
        util::round_down_to_next_multiple_of_alignment(n, align);
    max(a: NonZeroUsize, b: NonZeroUsize) -> NonZeroUsize = util::max(a, b);
    min(a: NonZeroUsize, b: NonZeroUsize) -> NonZeroUsize = util::min(a, b);

    rounding_new(align: NonZeroUsize, phase: usize) -> RoundingAlignAndPhase =
        RoundingAlignAndPhase::new(align, phase);
    rounding_components(word: RoundingAlignAndPhase) -> (NonZeroUsize, usize) = word.components();
    rounding_align(word: RoundingAlignAndPhase) -> NonZeroUsize = word.align();

    size_offset(layout: TrailingSliceLayout) -> usize = layout.size_offset();
    max_trailing_bytes(layout: TrailingSliceLayout, len: usize) -> Option<usize> = layout.max_trailing_bytes(len);
    padding_for_elems(layout: TrailingSliceLayout, elems: usize) -> usize = layout.padding_for_elems(elems);
    size_for_elems(layout: TrailingSliceLayout, elems: usize) -> Option<usize> = layout.size_for_elems(elems);
    advance(layout: TrailingSliceLayout, bytes: usize, elem_size: usize) -> Option<TrailingSliceLayout> =
        layout.advance(bytes, elem_size);
    has_same_size_sequence(layout: TrailingSliceLayout, other: TrailingSliceLayout) -> bool =
        layout.has_same_size_sequence(other);

    new_zst(repr_align: Option<NonZeroUsize>) -> DstLayout = DstLayout::new_zst(repr_align);
    for_type(size: usize, align: usize) -> DstLayout = DstLayout::for_type(size, align);
    for_unpadded_type(size: usize, align: usize) -> DstLayout = DstLayout::for_unpadded_type(size, align);
    for_slice(size: usize, align: usize) -> DstLayout = DstLayout::for_slice(size, align);
    extend(layout: DstLayout, field: DstLayout, packing: Option<NonZeroUsize>) -> DstLayout =
        layout.extend(field, packing);
    pad_to_align(layout: DstLayout) -> DstLayout = layout.pad_to_align();
    requires_static_padding(layout: DstLayout) -> bool = layout.requires_static_padding();
    requires_dynamic_padding(layout: DstLayout) -> bool = layout.requires_dynamic_padding();
    scalar(code: u64) -> Says<6> = crate::scalar(code);
    compose(align: Option<NonZeroUsize>, packing: Option<NonZeroUsize>, fields: &[DstLayout]) -> DstLayout =
        composed(align, packing, fields);
    for_repr_c_struct(align: Option<NonZeroUsize>, packing: Option<NonZeroUsize>, fields: &[DstLayout]) -> DstLayout =
        DstLayout::for_repr_c_struct(align, packing, fields);

    validate_cast_and_convert_metadata(layout: &DstLayout, addr: usize, len: usize, side: CastType)
        -> Result<(usize, usize), MetadataCastError> =
        layout.validate_cast_and_convert_metadata(addr, len, side);
    metadata_for_exact_size(layout: &DstLayout, size: usize) -> Option<usize> =
        layout.metadata_for_exact_size(size);

    size_sequences_match(src: TrailingSliceLayout, dst: TrailingSliceLayout, dst_base: usize) -> bool =
        CastParams::size_sequences_match(src, dst, dst_base);
    try_compute(src: &DstLayout, dst: &DstLayout) -> Option<CastParams> = CastParams::try_compute(src, dst);
    // SAFETY: the cases have counts whose converted count exists.
    cast_metadata(params: CastParams, count: usize) -> usize = unsafe { params.cast_metadata(count) };
}

/// `DstLayout::for_repr_c_struct` without its final padding.
fn composed(align: Option<NonZeroUsize>, packing: Option<NonZeroUsize>, fields: &[DstLayout]) -> DstLayout {
    let mut layout = DstLayout::new_zst(align);
    let mut i = 0;
    while i < fields.len() {
        let field = fields[i];
        layout = layout.extend(field, packing);
        i += 1;
    }
    layout
}
