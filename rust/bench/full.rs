//! Equal sizes, normal forms and conversions in the full mode, as one would write them in Rust with the same refusals
//! behind the C interface: what `tested` is of the functions that the Rust has.

use super::exports::{Layout, Told, Trailing};
use super::tested::{layout, params_told, tail, told};
use crate::*;

/// The rounded phase, which is the size at 0 without the base.
#[inline]
fn at_zero(align: usize, phase: usize) -> usize {
    if phase == 0 {
        0
    } else {
        align
    }
}

/// The phase rounded up to the lowest one bit of the element size.
#[inline]
fn seen(elem_size: usize, phase: usize) -> usize {
    let step = 1 << elem_size.trailing_zeros();
    (phase + (step - 1)) & !(step - 1)
}

#[inline]
fn agree(first: TrailingSliceLayout, second: TrailingSliceLayout) -> bool {
    let elem_size = first.elem_size;
    if elem_size != second.elem_size {
        return false;
    }
    let (align, phase) = first.size_rounding_align_and_phase.components();
    let (other_align, other_phase) = second.size_rounding_align_and_phase.components();
    let (align, other_align) = (align.get(), other_align.get());
    let size = first.size_base.overflowing_add(at_zero(align, phase));
    if size != second.size_base.overflowing_add(at_zero(other_align, other_phase)) {
        return false;
    }
    if elem_size & (align.max(other_align) - 1) == 0 {
        return true;
    }
    align == other_align && (seen(elem_size, phase) ^ seen(elem_size, other_phase)) & (align - 1) == 0
}

#[inline]
fn form(layout: TrailingSliceLayout) -> Says<3> {
    let (align, phase) = layout.size_rounding_align_and_phase.components();
    let (align, elem_size) = (align.get(), layout.elem_size);
    let size = || layout.size_base.checked_add(at_zero(align, phase)).ok_or(46u64);
    let (base, word) = if elem_size & (align - 1) == 0 {
        (size()?, 1)
    } else {
        let seen = seen(elem_size, phase);
        if seen & (align - 1) == 0 {
            (size()?, align)
        } else {
            (layout.size_base, align + seen - (1 << elem_size.trailing_zeros()) + 1)
        }
    };
    Ok([base as u64, elem_size as u64, word as u64])
}

#[inline]
fn sizes_match(src: TrailingSliceLayout, dst: TrailingSliceLayout, dst_base: usize) -> bool {
    let Some(bytes) = dst_base.checked_mul(dst.elem_size) else { return false };
    let Some(shifted) = dst.advance(bytes, src.elem_size) else { return false };
    src.size_for_elems(0).is_some() && agree(src, shifted)
}

/// The shift, as the Rust finds it, but for the match.
#[inline]
fn shift(src: TrailingSliceLayout, dst_layout: &DstLayout, dst: TrailingSliceLayout) -> Option<usize> {
    if let Some(delta) = src.size_offset().checked_sub(dst.size_offset()) {
        let elems = delta / dst.elem_size;
        if delta % dst.elem_size == 0 && sizes_match(src, dst, elems) {
            return Some(elems);
        }
    }
    let elems = dst_layout.metadata_for_exact_size(src.size_for_elems(0)?)?;
    sizes_match(src, dst, elems).then_some(elems)
}

#[inline]
fn compute(src_layout: &DstLayout, dst_layout: &DstLayout) -> Result<CastParamsInner, u64> {
    if src_layout.align < dst_layout.align {
        return Err(25);
    }
    match (src_layout.size_info, dst_layout.size_info) {
        (SizeInfo::Sized { size }, SizeInfo::Sized { size: other }) if size == other => {
            Ok(CastParamsInner::SizedToSized)
        }
        (SizeInfo::Sized { .. }, SizeInfo::Sized { .. }) => Err(26),
        (SizeInfo::Sized { size }, SizeInfo::SliceDst(_)) => {
            let dst_meta = dst_layout.metadata_for_exact_size(size).ok_or(28u64)?;
            Ok(CastParamsInner::SizedToUnsized { dst_meta })
        }
        (SizeInfo::SliceDst(_), SizeInfo::Sized { .. }) => Err(27),
        (SizeInfo::SliceDst(src), SizeInfo::SliceDst(dst)) => {
            if dst.elem_size == 0 {
                return Err(29);
            }
            if src.elem_size < dst.elem_size {
                return Err(30);
            }
            if src.elem_size % dst.elem_size != 0 {
                return Err(31);
            }
            let offset_delta_elems = shift(src, dst_layout, dst).ok_or(32u64)?;
            Ok(CastParamsInner::UnsizedToUnsized { offset_delta_elems, elem_multiple: src.elem_size / dst.elem_size })
        }
    }
}

pub extern "C" fn sizes_agree(first: Trailing, second: Trailing) -> Told<1> {
    told((|| yes_or_no(agree(tail(first)?, tail(second)?)))())
}

pub extern "C" fn normal_form(layout: Trailing) -> Told<3> {
    told((|| form(tail(layout)?))())
}

pub extern "C" fn size_sequences_match(src: Trailing, dst: Trailing, dst_base: u64) -> Told<1> {
    told((|| yes_or_no(sizes_match(tail(src)?, tail(dst)?, dst_base as usize)))())
}

pub extern "C" fn try_compute(src: Layout, dst: Layout) -> Told<4> {
    told((|| Ok(params_told(compute(&layout(src)?, &layout(dst)?)?)))())
}
