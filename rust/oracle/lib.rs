//! What the Rust says: its text as `extract.py` cut it, and a function on plain numbers for each one that is compared.
//!
//! A refusal is `Err` of its number in document 01, or a panic that carries it (`Cause`). Other panics are no refusals.
//! Inputs that the Rust does not take (alignment 0, rounding word 0) must not be handed over.

#![allow(unexpected_cfgs, dead_code)]

use core::{mem, primitive};

#[cfg(not(bits32))]
use core::num::NonZeroUsize;

// For 32 bits on a machine that has others: wherever the text says usize it has a number of 32 bits. What it says then
// is no authority: a program for a machine of 32 bits is asked the same (remote.rs).
#[cfg(bits32)]
use core::num::NonZeroU32 as NonZeroUsize;
#[cfg(bits32)]
#[allow(non_camel_case_types)]
type usize = u32;
#[cfg(bits32)]
#[allow(non_camel_case_types)]
type isize = i32;

/// What a panic carries where the Rust refuses by an assertion: the number of the cause.
pub struct Cause(pub u64);

/// What the call says, where a panic that carries a cause is that refusal. Any other panic goes on.
pub fn said<T>(call: impl FnOnce() -> Result<T, u64>) -> Result<T, u64> {
    // Nothing that the call could leave half done is looked at after a panic.
    std::panic::catch_unwind(std::panic::AssertUnwindSafe(call)).unwrap_or_else(|panic| {
        match panic.downcast::<Cause>() {
            Ok(cause) => Err(cause.0),
            Err(panic) => std::panic::resume_unwind(panic),
        }
    })
}

/// Unwinds without a message: refusals are no news, and there are millions of them.
#[cold]
fn refuse(cause: u64) -> ! {
    std::panic::resume_unwind(Box::new(Cause(cause)))
}

fn require(holds: bool, cause: u64) {
    if !holds {
        refuse(cause)
    }
}

/// As `require`, where the Rust asserts in debug builds only.
fn debug_require(holds: bool, cause: u64) {
    if cfg!(debug_assertions) {
        require(holds, cause)
    }
}

// The source's own macros that are not in the published files. What they assert is no refusal.
macro_rules! const_debug_assert {
    ($($condition:tt)*) => { debug_assert!($($condition)*) };
}
macro_rules! const_unreachable {
    () => {
        panic!("reached what the Rust calls unreachable")
    };
}

include!(env!("ORACLE_TEXT"));

// The bench stands in here, since it calls the Rust with the Rust's own types.
#[cfg(bench)]
#[path = "../bench/mod.rs"]
pub mod bench;

/// An answer of N numbers, or the number of the refusal.
pub type Says<const N: primitive::usize> = Result<[u64; N], u64>;

/// A trailing layout: size_base, offset, elem_size, rounding word.
pub type Trailing = [u64; 4];

/// A layout, as its record: alignment, kind, and then a trailing layout, or the size and three zeros.
pub type Layout = [u64; 6];

/// The parameters of a conversion: kind, offset_delta_elems, elem_multiple, dst_meta.
pub type Params = [u64; 4];

/// A number that is handed over has the width: it is never cut off.
fn narrow(number: u64) -> usize {
    usize::try_from(number).expect("the number passes the width")
}

fn nonzero(number: u64) -> NonZeroUsize {
    NonZeroUsize::new(narrow(number)).expect("the Rust takes no 0 here")
}

fn number(value: usize) -> Says<1> {
    Ok([value as u64])
}

fn number_or(value: Option<usize>, refusal: u64) -> Says<1> {
    value.map(|value| [value as u64]).ok_or(refusal)
}

fn yes_or_no(value: bool) -> Says<1> {
    Ok([u64::from(value)])
}

fn trailing([size_base, offset, elem_size, word]: Trailing) -> TrailingSliceLayout {
    TrailingSliceLayout {
        offset: narrow(offset),
        elem_size: narrow(elem_size),
        size_base: narrow(size_base),
        size_rounding_align_and_phase: RoundingAlignAndPhase(nonzero(word)),
    }
}

fn trailing_numbers(layout: TrailingSliceLayout) -> Trailing {
    [
        layout.size_base as u64,
        layout.offset as u64,
        layout.elem_size as u64,
        layout.size_rounding_align_and_phase.0.get() as u64,
    ]
}

/// The Rust has no alignment modifier: 4 of a kind is left out, and no answer has it.
fn layout([align, kind, tail @ ..]: Layout) -> DstLayout {
    let size_info =
        if kind & 2 == 0 { SizeInfo::Sized { size: narrow(tail[0]) } } else { SizeInfo::SliceDst(trailing(tail)) };
    DstLayout { align: nonzero(align), size_info, statically_shallow_unpadded: kind % 2 == 1 }
}

fn layout_numbers(layout: DstLayout) -> Says<6> {
    let (align, mark) = (layout.align.get() as u64, u64::from(layout.statically_shallow_unpadded));
    Ok(match layout.size_info {
        SizeInfo::Sized { size } => [align, mark, size as u64, 0, 0, 0],
        SizeInfo::SliceDst(slice) => {
            let [size_base, offset, elem_size, word] = trailing_numbers(slice);
            [align, 2 + mark, size_base, offset, elem_size, word]
        }
    })
}

/// An alignment or packing that may not be asked for.
fn asked(number: u64) -> Option<NonZeroUsize> {
    NonZeroUsize::new(narrow(number))
}

// ---- rounding helpers ----

pub fn is_power_of_two(align: u64) -> Says<1> {
    yes_or_no(narrow(align).is_power_of_two())
}

pub fn padding_needed_for(len: u64, align: u64) -> Says<1> {
    number(util::padding_needed_for(narrow(len), nonzero(align)))
}

pub fn round_down_to_next_multiple_of_alignment(n: u64, align: u64) -> Says<1> {
    number(util::round_down_to_next_multiple_of_alignment(narrow(n), nonzero(align)))
}

pub fn max(a: u64, b: u64) -> Says<1> {
    number(util::max(nonzero(a), nonzero(b)).get())
}

pub fn min(a: u64, b: u64) -> Says<1> {
    number(util::min(nonzero(a), nonzero(b)).get())
}

// ---- the rounding word ----

pub fn rounding_new(align: u64, phase: u64) -> Says<1> {
    number(RoundingAlignAndPhase::new(nonzero(align), narrow(phase)).0.get())
}

pub fn rounding_components(word: u64) -> Says<2> {
    let (align, phase) = RoundingAlignAndPhase(nonzero(word)).components();
    Ok([align.get() as u64, phase as u64])
}

pub fn rounding_align(word: u64) -> Says<1> {
    number(RoundingAlignAndPhase(nonzero(word)).align().get())
}

// ---- trailing layouts ----

pub fn size_offset(layout: Trailing) -> Says<1> {
    number(trailing(layout).size_offset())
}

pub fn max_trailing_bytes(layout: Trailing, available_bytes: u64) -> Says<1> {
    number_or(trailing(layout).max_trailing_bytes(narrow(available_bytes)), 16)
}

pub fn padding_for_elems(layout: Trailing, elems: u64) -> Says<1> {
    number(trailing(layout).padding_for_elems(narrow(elems)))
}

pub fn size_for_elems(layout: Trailing, elems: u64) -> Says<1> {
    number_or(trailing(layout).size_for_elems(narrow(elems)), 15)
}

pub fn advance(layout: Trailing, bytes: u64, elem_size: u64) -> Says<4> {
    trailing(layout).advance(narrow(bytes), narrow(elem_size)).map(trailing_numbers).ok_or(17)
}

pub fn has_same_size_sequence(layout: Trailing, other: Trailing) -> Says<1> {
    yes_or_no(trailing(layout).has_same_size_sequence(trailing(other)))
}

// ---- whole layouts ----

pub fn new_zst(repr_align: u64) -> Says<6> {
    layout_numbers(DstLayout::new_zst(asked(repr_align)))
}

pub fn for_type(size: u64, align: u64) -> Says<6> {
    layout_numbers(DstLayout::for_type(narrow(size), narrow(align)))
}

pub fn for_unpadded_type(size: u64, align: u64) -> Says<6> {
    layout_numbers(DstLayout::for_unpadded_type(narrow(size), narrow(align)))
}

pub fn for_slice(size: u64, align: u64) -> Says<6> {
    layout_numbers(DstLayout::for_slice(narrow(size), narrow(align)))
}

pub fn extend(own: Layout, field: Layout, repr_packed: u64) -> Says<6> {
    layout_numbers(layout(own).extend(layout(field), asked(repr_packed)))
}

pub fn pad_to_align(own: Layout) -> Says<6> {
    layout_numbers(layout(own).pad_to_align())
}

pub fn requires_static_padding(own: Layout) -> Says<1> {
    yes_or_no(layout(own).requires_static_padding())
}

pub fn requires_dynamic_padding(own: Layout) -> Says<1> {
    yes_or_no(layout(own).requires_dynamic_padding())
}

// ---- scalars and member lists ----

/// A type that has no padding, as the compiler lays it out.
#[cfg(not(bits32))]
fn unpadded<T>() -> Says<6> {
    for_unpadded_type(mem::size_of::<T>() as u64, mem::align_of::<T>() as u64)
}

/// The scalar of a code up to 8.
#[cfg(not(bits32))]
pub fn scalar(code: u64) -> Says<6> {
    let by_code = [
        unpadded::<u8>,
        unpadded::<u16>,
        unpadded::<u32>,
        unpadded::<u64>,
        unpadded::<f32>,
        unpadded::<f64>,
        unpadded::<char>,
        unpadded::<bool>,
        unpadded::<usize>,
    ];
    by_code[code as usize]()
}

/// The scalars by their codes, size and alignment, as a compiler for 32 bits lays them out: this one does otherwise.
#[cfg(bits32)]
pub static SCALARS: std::sync::OnceLock<Vec<[u64; 2]>> = std::sync::OnceLock::new();

#[cfg(bits32)]
pub fn scalar(code: u64) -> Says<6> {
    let [size, align] = SCALARS.get().expect("they were asked for")[code as primitive::usize];
    for_unpadded_type(size, align)
}

/// A refusal of a list: number and place.
pub type AtPlace = (u64, primitive::usize);

/// The Rust's composition before its final padding, by its own steps, so that the step that panics gives the place.
pub fn compose(repr_align: u64, repr_packed: u64, members: &[Layout]) -> Result<Layout, AtPlace> {
    let mut whole = said(|| new_zst(repr_align)).map_err(|number| (number, 0))?;
    for (place, member) in members.iter().enumerate() {
        whole = said(|| extend(whole, *member, repr_packed)).map_err(|number| (number, place))?;
    }
    Ok(whole)
}

pub fn for_repr_c_struct(repr_align: u64, repr_packed: u64, members: &[Layout]) -> Result<Layout, AtPlace> {
    let fields: Vec<DstLayout> = members.iter().map(|member| layout(*member)).collect();
    let whole = said(|| layout_numbers(DstLayout::for_repr_c_struct(asked(repr_align), asked(repr_packed), &fields)));
    let by_steps = compose(repr_align, repr_packed, members)
        .and_then(|layout| said(|| pad_to_align(layout)).map_err(|number| (number, members.len())));
    assert_eq!(whole, by_steps.map_err(|(number, _)| number), "the Rust's composition and its steps");
    by_steps
}

// ---- casts ----

pub fn validate_cast_and_convert_metadata(own: Layout, addr: u64, bytes_len: u64, suffix: bool) -> Says<2> {
    let side = if suffix { CastType::Suffix } else { CastType::Prefix };
    match layout(own).validate_cast_and_convert_metadata(narrow(addr), narrow(bytes_len), side) {
        Ok((count, split)) => Ok([count as u64, split as u64]),
        Err(MetadataCastError::Alignment) => Err(12),
        Err(MetadataCastError::Size) => Err(13),
    }
}

pub fn metadata_for_exact_size(own: Layout, size: u64) -> Says<1> {
    number_or(layout(own).metadata_for_exact_size(narrow(size)), 14)
}

// ---- conversions ----

pub fn size_sequences_match(src: Trailing, dst: Trailing, dst_base: u64) -> Says<1> {
    yes_or_no(CastParams::size_sequences_match(trailing(src), trailing(dst), narrow(dst_base)))
}

/// The Rust's answer; where it gives none, the number of the place at which it does.
pub fn try_compute(src: Layout, dst: Layout) -> Says<4> {
    let (src, dst) = (layout(src), layout(dst));
    let why = CastParams::try_compute_or_why(&src, &dst).err();
    let params = CastParams::try_compute(&src, &dst);
    assert_eq!(params.is_none(), why.is_some(), "the Rust's conversion and the one that says why there is none");
    let params = params.ok_or_else(|| why.unwrap())?;
    Ok(match params.inner {
        CastParamsInner::SizedToSized => [0, 0, 0, 0],
        CastParamsInner::SizedToUnsized { dst_meta } => [1, 0, 0, dst_meta as u64],
        CastParamsInner::UnsizedToUnsized { offset_delta_elems, elem_multiple } => {
            [2, offset_delta_elems as u64, elem_multiple as u64, 0]
        }
    })
}

/// The count is one that the Rust may be asked for: its sum is at most M.
pub fn cast_metadata([kind, offset_delta_elems, elem_multiple, dst_meta]: Params, src_meta: u64) -> Says<1> {
    let [delta, multiple, count] = [offset_delta_elems, elem_multiple, src_meta].map(u128::from);
    assert!(kind < 2 || delta + multiple * count <= usize::MAX as u128, "the sum passes M");
    let inner = match kind {
        0 => CastParamsInner::SizedToSized,
        1 => CastParamsInner::SizedToUnsized { dst_meta: narrow(dst_meta) },
        _ => CastParamsInner::UnsizedToUnsized {
            offset_delta_elems: narrow(offset_delta_elems),
            elem_multiple: narrow(elem_multiple),
        },
    };
    // SAFETY: the sum that the Rust does not test exists.
    number(unsafe { CastParams { inner }.cast_metadata(narrow(src_meta)) })
}

// ---- where the Rust is asked ----

/// Does what compares with the Rust, which is asked here and at once. (At 32 bits it is not; see remote.rs.)
pub fn compared<T>(compare: impl FnOnce() -> T) -> T {
    compare()
}

/// How many calls were answered somewhere else, all of them as here; or what was answered otherwise.
pub fn settled() -> Result<u64, String> {
    Ok(0)
}
