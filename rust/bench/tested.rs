//! The Rust behind the C interface, with the export's refusals and the same answer.
//!
//! It is written as one would write it in Rust: plain tests with early returns, in the order of document 01, that make
//! the Rust's own types of the numbers, so that nothing is tested twice, and then the Rust's own function; of `extend`
//! and `pad_to_align` the text with refusals that are returned. All of it is compiled as one unit, so that the compiler
//! may inline what it likes.

use super::exports::{Layout, Told, Trailing, Words};
use crate::*;
use core::slice;

// ---- the numbers as the Rust's types, or the refusal ----

#[inline]
fn alignment(number: u64) -> Result<NonZeroUsize, u64> {
    if !number.is_power_of_two() {
        return Err(1);
    }
    NonZeroUsize::new(number as usize).ok_or(1)
}

#[inline]
fn asked_alignment(number: u64) -> Result<Option<NonZeroUsize>, u64> {
    if number == 0 {
        return Ok(None);
    }
    alignment(number).map(Some)
}

/// Not the oracle's, which tests the width and so is inlined otherwise.
#[inline]
fn asked(number: u64) -> Option<NonZeroUsize> {
    NonZeroUsize::new(number as usize)
}

#[inline]
fn rounding(word: u64) -> Result<RoundingAlignAndPhase, u64> {
    NonZeroUsize::new(word as usize).map(RoundingAlignAndPhase).ok_or(2)
}

#[inline]
pub fn tail(Words([size_base, offset, elem_size, word]): Trailing) -> Result<TrailingSliceLayout, u64> {
    Ok(TrailingSliceLayout {
        offset: offset as usize,
        elem_size: elem_size as usize,
        size_base: size_base as usize,
        size_rounding_align_and_phase: rounding(word)?,
    })
}

/// 4 of a kind, which the Rust's types do not carry.
#[inline]
fn modifier(Words([_, kind, ..]): Layout) -> u64 {
    kind & 4
}

#[inline]
fn asked_modifier(repr_align: u64) -> u64 {
    if repr_align == 0 {
        0
    } else {
        4
    }
}

#[inline]
pub fn layout(Words([align, kind, size_base, offset, elem_size, word]): Layout) -> Result<DstLayout, u64> {
    if kind > 7 {
        return Err(21);
    }
    let align = alignment(align)?;
    let size_info = if kind & 2 == 0 {
        if (offset | elem_size | word) != 0 {
            return Err(22);
        }
        SizeInfo::Sized { size: size_base as usize }
    } else {
        SizeInfo::SliceDst(tail(Words([size_base, offset, elem_size, word]))?)
    };
    Ok(DstLayout { align, size_info, statically_shallow_unpadded: kind % 2 == 1 })
}

#[inline]
fn check_type(size: u64, align: u64) -> Result<(), u64> {
    if !align.is_power_of_two() {
        return Err(1);
    }
    if size & (align - 1) != 0 {
        return Err(4);
    }
    Ok(())
}

// ---- compositions ----

#[inline]
fn word_at(record: &[u8; 48], at: usize) -> u64 {
    u64::from_le_bytes(record[at..at + 8].try_into().unwrap())
}

#[inline]
fn words(record: &[u8; 48]) -> Layout {
    Words([
        word_at(record, 0),
        word_at(record, 8),
        word_at(record, 16),
        word_at(record, 24),
        word_at(record, 32),
        word_at(record, 40),
    ])
}

/// The members one after the other and the alignment modifier, or the refusal and its place.
#[inline]
fn composed(strict: bool, repr_align: u64, repr_packed: u64, members: &[u8]) -> Result<(DstLayout, u64), (u64, u64)> {
    if members.len() % 48 != 0 {
        return Err((20, 0));
    }
    let align = asked_alignment(repr_align).map_err(|number| (number, 0))?;
    let packing = asked(repr_packed);
    if strict && align.is_some() && packing.is_some() {
        return Err((49, 0));
    }
    let (mut whole, mut of_all) = (DstLayout::new_zst(align), asked_modifier(repr_align));
    for (place, record) in members.chunks_exact(48).enumerate() {
        let refused = |number| (number, place as u64);
        let words = words(record.try_into().unwrap());
        let member = layout(words).map_err(refused)?;
        if strict && packing.is_some() && modifier(words) != 0 {
            return Err(refused(50));
        }
        whole = whole.try_extend(member, packing).map_err(refused)?;
        of_all |= modifier(words);
    }
    Ok((whole, of_all))
}

// ---- the answers of the C interface ----

#[inline]
pub fn told<const N: usize>(says: Says<N>) -> Told<N> {
    match says {
        Ok(values) => Told { refusal: 0, values },
        Err(refusal) => Told { refusal, values: [0; N] },
    }
}

#[inline]
pub fn told_at(says: Result<(DstLayout, u64), (u64, u64)>) -> Told<7> {
    match says {
        Ok((layout, modifier)) => {
            let [align, kind, size_base, offset, elem_size, word] = with_modifier(layout, modifier);
            Told { refusal: 0, values: [0, align, kind, size_base, offset, elem_size, word] }
        }
        Err((refusal, place)) => Told { refusal, values: [place, 0, 0, 0, 0, 0, 0] },
    }
}

#[inline]
pub fn params_told(params: CastParamsInner) -> [u64; 4] {
    match params {
        CastParamsInner::SizedToSized => [0, 0, 0, 0],
        CastParamsInner::SizedToUnsized { dst_meta } => [1, 0, 0, dst_meta as u64],
        CastParamsInner::UnsizedToUnsized { offset_delta_elems, elem_multiple } => {
            [2, offset_delta_elems as u64, elem_multiple as u64, 0]
        }
    }
}

#[inline]
fn layout_words(layout: DstLayout) -> [u64; 6] {
    let (align, mark) = (layout.align.get() as u64, u64::from(layout.statically_shallow_unpadded));
    match layout.size_info {
        SizeInfo::Sized { size } => [align, mark, size as u64, 0, 0, 0],
        SizeInfo::SliceDst(tail) => {
            let [size_base, offset, elem_size, word] = trailing_numbers(tail);
            [align, 2 + mark, size_base, offset, elem_size, word]
        }
    }
}

#[inline]
fn with_modifier(layout: DstLayout, modifier: u64) -> [u64; 6] {
    let [align, kind, size_base, offset, elem_size, word] = layout_words(layout);
    [align, kind + modifier, size_base, offset, elem_size, word]
}

macro_rules! functions {
    ($($name:ident($($input:ident: $type:ty),*) -> $answers:literal $answer:block)*) => {
        $(pub extern "C" fn $name($($input: $type),*) -> Told<$answers> {
            told((|| $answer)())
        })*
    };
}

/// With 15 comes the greatest count that has a size.
pub extern "C" fn size_for_elems(layout: Trailing, elems: u64) -> Told<1> {
    let layout = match tail(layout) {
        Ok(layout) => layout,
        Err(refusal) => return told(Err(refusal)),
    };
    match (layout.size_for_elems(elems as usize), layout.max_trailing_bytes(usize::MAX)) {
        (Some(size), _) => told(Ok([size as u64])),
        (None, Some(bytes)) => Told { refusal: 15, values: [(bytes / layout.elem_size) as u64] },
        (None, None) => told(Err(39)),
    }
}

/// Whether bytes from their start hold a layout that is one.
fn prefix(own: &DstLayout, addr: u64, len: u64) -> Result<[u64; 2], u64> {
    if matches!(own.size_info, SizeInfo::SliceDst(TrailingSliceLayout { elem_size: 0, .. })) {
        return Err(10);
    }
    if addr.checked_add(len).is_none() {
        return Err(11);
    }
    match own.validate_cast_and_convert_metadata(addr as usize, len as usize, CastType::Prefix) {
        Ok((count, split)) => Ok([count as u64, split as u64]),
        Err(MetadataCastError::Alignment) => Err(12),
        Err(MetadataCastError::Size) => Err(13),
    }
}

/// The map where its cast is granted, else the spare where its own is.
pub extern "C" fn which_serves(own: Layout, map: u64, map_len: u64, spare: u64, spare_len: u64) -> Told<4> {
    let own = match layout(own) {
        Ok(own) => own,
        Err(refusal) => return Told { refusal, values: [refusal, 0, 0, 0] },
    };
    match prefix(&own, map, map_len) {
        Ok([count, split]) => Told { refusal: 0, values: [0, 1, count, split] },
        Err(refusal) => match prefix(&own, spare, spare_len) {
            Ok([count, split]) => Told { refusal, values: [0, 2, count, split] },
            Err(other) => Told { refusal, values: [other, 0, 0, 0] },
        },
    }
}

functions! {
    padding_needed_for(len: u64, align: u64) -> 1 {
        number(util::padding_needed_for(len as usize, alignment(align)?))
    }
    round_down_to_next_multiple_of_alignment(n: u64, align: u64) -> 1 {
        number(util::round_down_to_next_multiple_of_alignment(n as usize, alignment(align)?))
    }
    max(a: u64, b: u64) -> 1 { number(util::max(alignment(a)?, alignment(b)?).get()) }
    min(a: u64, b: u64) -> 1 { number(util::min(alignment(a)?, alignment(b)?).get()) }

    rounding_new(align: u64, phase: u64) -> 1 {
        let align = alignment(align)?;
        if phase as usize >= align.get() {
            return Err(3);
        }
        number(RoundingAlignAndPhase::new(align, phase as usize).0.get())
    }
    rounding_components(word: u64) -> 2 {
        let (align, phase) = rounding(word)?.components();
        Ok([align.get() as u64, phase as u64])
    }
    rounding_align(word: u64) -> 1 { number(rounding(word)?.align().get()) }

    size_offset(layout: Trailing) -> 1 { number(tail(layout)?.size_offset()) }
    max_trailing_bytes(layout: Trailing, len: u64) -> 1 {
        number_or(tail(layout)?.max_trailing_bytes(len as usize), 16)
    }
    padding_for_elems(layout: Trailing, elems: u64) -> 1 { number(tail(layout)?.padding_for_elems(elems as usize)) }
    advance(layout: Trailing, bytes: u64, elem_size: u64) -> 4 {
        tail(layout)?.advance(bytes as usize, elem_size as usize).map(trailing_numbers).ok_or(17)
    }
    has_same_size_sequence(layout: Trailing, other: Trailing) -> 1 {
        yes_or_no(tail(layout)?.has_same_size_sequence(tail(other)?))
    }

    new_zst(repr_align: u64) -> 6 {
        Ok(with_modifier(DstLayout::new_zst(asked_alignment(repr_align)?), asked_modifier(repr_align)))
    }
    for_type(size: u64, align: u64) -> 6 {
        check_type(size, align)?;
        Ok(layout_words(DstLayout::for_type(size as usize, align as usize)))
    }
    for_unpadded_type(size: u64, align: u64) -> 6 {
        check_type(size, align)?;
        Ok(layout_words(DstLayout::for_unpadded_type(size as usize, align as usize)))
    }
    for_slice(size: u64, align: u64) -> 6 {
        check_type(size, align)?;
        Ok(layout_words(DstLayout::for_slice(size as usize, align as usize)))
    }
    extend(own: Layout, field: Layout, repr_packed: u64) -> 6 {
        let of_both = modifier(own) | modifier(field);
        let (own, field) = (layout(own)?, layout(field)?);
        Ok(with_modifier(own.try_extend(field, asked(repr_packed))?, of_both))
    }
    pad_to_align(own: Layout) -> 6 { Ok(with_modifier(layout(own)?.try_pad_to_align()?, modifier(own))) }
    requires_static_padding(own: Layout) -> 1 { yes_or_no(layout(own)?.requires_static_padding()) }
    requires_dynamic_padding(own: Layout) -> 1 { yes_or_no(layout(own)?.requires_dynamic_padding()) }

    for_array(elem: Layout, count: u64) -> 6 {
        let array = layout(elem)?;
        let SizeInfo::Sized { size } = array.size_info else { return Err(36) };
        let size = size.checked_mul(count as usize).ok_or(37u64)?;
        Ok(with_modifier(DstLayout { size_info: SizeInfo::Sized { size }, ..array }, modifier(elem)))
    }
    for_slice_of(elem: Layout) -> 6 {
        let own = layout(elem)?;
        let SizeInfo::Sized { size } = own.size_info else { return Err(36) };
        let tail = TrailingSliceLayout {
            offset: 0,
            elem_size: size,
            size_base: 0,
            size_rounding_align_and_phase: RoundingAlignAndPhase(own.align),
        };
        let size_info = SizeInfo::SliceDst(tail);
        Ok(with_modifier(DstLayout { size_info, statically_shallow_unpadded: true, ..own }, modifier(elem)))
    }
    scalar(code: u64) -> 6 {
        if code > 8 {
            return Err(23);
        }
        Ok(layout_words(SCALARS[code as usize]))
    }

    validate_cast_and_convert_metadata(own: Layout, addr: u64, len: u64, suffix: bool) -> 2 {
        let own = layout(own)?;
        if matches!(own.size_info, SizeInfo::SliceDst(TrailingSliceLayout { elem_size: 0, .. })) {
            return Err(10);
        }
        if addr.checked_add(len).is_none() {
            return Err(11);
        }
        let side = if suffix { CastType::Suffix } else { CastType::Prefix };
        match own.validate_cast_and_convert_metadata(addr as usize, len as usize, side) {
            Ok((count, split)) => Ok([count as u64, split as u64]),
            Err(MetadataCastError::Alignment) => Err(12),
            Err(MetadataCastError::Size) => Err(13),
        }
    }
    metadata_for_exact_size(own: Layout, size: u64) -> 1 {
        number_or(layout(own)?.metadata_for_exact_size(size as usize), 14)
    }

    size_sequences_match(src: Trailing, dst: Trailing, dst_base: u64) -> 1 {
        yes_or_no(CastParams::size_sequences_match(tail(src)?, tail(dst)?, dst_base as usize))
    }
    try_compute(src: Layout, dst: Layout) -> 4 {
        let (src, dst) = (layout(src)?, layout(dst)?);
        Ok(params_told(CastParams::try_compute_or_why(&src, &dst)?.inner))
    }
    cast_metadata(params: Words<4>, count: u64) -> 1 {
        let Words([kind, shift, multiple, meta]) = params;
        if kind < 2 {
            return Ok([if kind == 0 { 0 } else { meta }]);
        }
        match multiple.checked_mul(count).and_then(|scaled| scaled.checked_add(shift)) {
            Some(converted) => Ok([converted]),
            None => Err(19),
        }
    }
}

pub extern "C" fn is_power_of_two(align: u64) -> u8 {
    u8::from(align.is_power_of_two())
}

const fn unpadded<T>() -> DstLayout {
    DstLayout {
        align: NonZeroUsize::new(mem::align_of::<T>()).unwrap(),
        size_info: SizeInfo::Sized { size: mem::size_of::<T>() },
        statically_shallow_unpadded: true,
    }
}

pub const SCALARS: [DstLayout; 9] = [
    unpadded::<u8>(),
    unpadded::<u16>(),
    unpadded::<u32>(),
    unpadded::<u64>(),
    unpadded::<f32>(),
    unpadded::<f64>(),
    unpadded::<char>(),
    unpadded::<bool>(),
    unpadded::<usize>(),
];

fn decoded(record: &[u8]) -> Says<6> {
    let record = record.try_into().map_err(|_| 20u64)?;
    let words = words(record);
    layout(words)?;
    Ok(words.0)
}

fn encoded(own: Layout, out: &mut [u8]) -> Result<(), u64> {
    if out.len() != 48 {
        return Err(20);
    }
    layout(own)?;
    for (bytes, word) in out.chunks_exact_mut(8).zip(own.0) {
        bytes.copy_from_slice(&word.to_le_bytes());
    }
    Ok(())
}

// SAFETY of these: the bytes are as many as said.

pub unsafe extern "C" fn decode(record: *const u8, len: usize) -> Told<6> {
    told(decoded(unsafe { slice::from_raw_parts(record, len) }))
}

pub unsafe extern "C" fn encode(own: Layout, out: *mut u8, len: usize) -> u64 {
    match encoded(own, unsafe { slice::from_raw_parts_mut(out, len) }) {
        Ok(()) => 0,
        Err(refusal) => refusal,
    }
}

pub unsafe extern "C" fn compose(repr_align: u64, repr_packed: u64, members: *const u8, len: usize) -> Told<7> {
    told_at(composed(false, repr_align, repr_packed, unsafe { slice::from_raw_parts(members, len) }))
}

#[inline]
fn of_struct(strict: bool, repr_align: u64, repr_packed: u64, members: &[u8]) -> Told<7> {
    let whole = composed(strict, repr_align, repr_packed, members);
    told_at(whole.and_then(|(whole, modifier)| match whole.try_pad_to_align() {
        Ok(padded) => Ok((padded, modifier)),
        Err(number) => Err((number, members.len() as u64 / 48)),
    }))
}

pub unsafe extern "C" fn for_repr_c_struct(
    repr_align: u64,
    repr_packed: u64,
    members: *const u8,
    len: usize,
) -> Told<7> {
    of_struct(false, repr_align, repr_packed, unsafe { slice::from_raw_parts(members, len) })
}

pub unsafe extern "C" fn for_repr_c_struct_strict(
    repr_align: u64,
    repr_packed: u64,
    members: *const u8,
    len: usize,
) -> Told<7> {
    of_struct(true, repr_align, repr_packed, unsafe { slice::from_raw_parts(members, len) })
}

/// The struct, and then where its members stand: of one that was accepted no sum overflows.
fn of_struct_with_places(
    repr_align: u64,
    repr_packed: u64,
    members: &[u8],
    places: &mut [u64],
    gaps: &mut [u64],
) -> Told<7> {
    if members.len() % 48 != 0 {
        return told_at(Err((20, 0)));
    }
    let count = members.len() / 48;
    if places.len() != count || gaps.len() != count {
        return told_at(Err((24, 0)));
    }
    let whole = of_struct(false, repr_align, repr_packed, members);
    if whole.refusal != 0 {
        return whole;
    }
    let packing = asked(repr_packed);
    let mut end = 0;
    for ((record, place), gap) in members.chunks_exact(48).zip(places).zip(gaps) {
        let record = record.try_into().unwrap();
        // SAFETY: the record was accepted, so its alignment is not 0.
        let own_align = unsafe { NonZeroUsize::new_unchecked(word_at(record, 0) as usize) };
        let align = packing.map_or(own_align, |packing| util::min(own_align, packing));
        *gap = util::padding_needed_for(end, align) as u64;
        *place = end as u64 + *gap;
        end = *place as usize + word_at(record, 16) as usize;
    }
    whole
}

pub unsafe extern "C" fn for_repr_c_struct_places(
    repr_align: u64,
    repr_packed: u64,
    members: *const u8,
    len: usize,
    places: *mut u64,
    places_len: usize,
    gaps: *mut u64,
    gaps_len: usize,
) -> Told<7> {
    let (places, gaps) =
        unsafe { (slice::from_raw_parts_mut(places, places_len), slice::from_raw_parts_mut(gaps, gaps_len)) };
    of_struct_with_places(repr_align, repr_packed, unsafe { slice::from_raw_parts(members, len) }, places, gaps)
}

/// A layout with a member more, and the alignment modifier of both.
#[inline]
fn extended(own: Layout, field: Result<Layout, u64>, repr_packed: u64) -> Says<6> {
    let whole = layout(own)?;
    let field = field?;
    let member = layout(field)?;
    Ok(with_modifier(whole.try_extend(member, asked(repr_packed))?, modifier(own) | modifier(field)))
}

/// Alters the lent layout where the member is accepted.
#[inline]
fn altered(working: &mut Layout, next: Says<6>) -> u64 {
    match next {
        Ok(words) => {
            *working = Words(words);
            0
        }
        Err(refusal) => refusal,
    }
}

pub extern "C" fn working_add(working: &mut Layout, field: Layout, repr_packed: u64) -> u64 {
    let next = extended(*working, Ok(field), repr_packed);
    altered(working, next)
}

pub unsafe extern "C" fn working_add_record(
    working: &mut Layout,
    member: *const u8,
    len: usize,
    repr_packed: u64,
) -> u64 {
    let member = unsafe { slice::from_raw_parts(member, len) }.try_into().map(words).map_err(|_| 20);
    let next = extended(*working, member, repr_packed);
    altered(working, next)
}

// ---- short records ----

type ShortRecord = [u8; 32];

/// The record of a layout that is accepted, in its short form.
#[inline]
fn put_short(Words([align, kind, size_base, offset, elem_size, word]): Layout, out: &mut ShortRecord) {
    out[..8].copy_from_slice(&size_base.to_le_bytes());
    out[8..16].copy_from_slice(&offset.to_le_bytes());
    out[16..24].copy_from_slice(&elem_size.to_le_bytes());
    out[24..28].copy_from_slice(&(word as u32).to_le_bytes());
    out[28..].copy_from_slice(&[align.trailing_zeros() as u8, kind as u8, 0, 0]);
}

/// The words that are put into a short record, where they are accepted.
#[inline]
fn check_to_short(words: Layout) -> Result<(), u64> {
    layout(words)?;
    if words.0[5] > u32::MAX.into() {
        return Err(40);
    }
    Ok(())
}

#[inline]
fn short_word_at(record: &ShortRecord, at: usize) -> u64 {
    u64::from_le_bytes(record[at..at + 8].try_into().unwrap())
}

/// The words of a short record whose power is at most 63.
#[inline]
fn words_of_short(record: &ShortRecord) -> Layout {
    let word = u32::from_le_bytes(record[24..28].try_into().unwrap());
    Words([
        1 << (record[28] & 63),
        record[29].into(),
        short_word_at(record, 0),
        short_word_at(record, 8),
        short_word_at(record, 16),
        word.into(),
    ])
}

#[inline]
fn check_short(record: &ShortRecord) -> Result<(), u64> {
    if record[29] > 7 {
        return Err(21);
    }
    if record[30..] != [0, 0] || record[28] > 63 {
        return Err(42);
    }
    let Words([_, kind, _, offset, elem_size, word]) = words_of_short(record);
    match kind & 2 {
        0 if (offset | elem_size | word) != 0 => Err(22),
        2 if word == 0 => Err(2),
        _ => Ok(()),
    }
}

fn decoded_short(record: &[u8]) -> Says<6> {
    let record = record.try_into().map_err(|_| 20u64)?;
    check_short(record)?;
    Ok(words_of_short(record).0)
}

fn encoded_short(own: Layout, out: &mut [u8]) -> Result<(), u64> {
    let out = out.try_into().map_err(|_| 20u64)?;
    check_to_short(own)?;
    put_short(own, out);
    Ok(())
}

pub unsafe extern "C" fn decode_short(record: *const u8, len: usize) -> Told<6> {
    told(decoded_short(unsafe { slice::from_raw_parts(record, len) }))
}

pub unsafe extern "C" fn encode_short(own: Layout, out: *mut u8, len: usize) -> u64 {
    match encoded_short(own, unsafe { slice::from_raw_parts_mut(out, len) }) {
        Ok(()) => 0,
        Err(refusal) => refusal,
    }
}

/// A move: all records are tested in a first pass and written in a second.
#[inline(always)]
fn moved<const FROM: usize, const TO: usize>(
    records: &[u8],
    out: &mut [u8],
    check: impl Fn(&[u8; FROM]) -> Result<(), u64>,
    put: impl Fn(&[u8; FROM], &mut [u8; TO]),
) -> Told<2> {
    let refused = |refusal, place| Told { refusal, values: [place as u64, 0] };
    if records.len() % FROM != 0 {
        return refused(20, 0);
    }
    let count = records.len() / FROM;
    if out.len() / TO < count {
        return refused(41, 0);
    }
    for (place, record) in records.chunks_exact(FROM).enumerate() {
        if let Err(refusal) = check(record.try_into().unwrap()) {
            return refused(refusal, place);
        }
    }
    for (record, out) in records.chunks_exact(FROM).zip(out.chunks_exact_mut(TO)) {
        put(record.try_into().unwrap(), out.try_into().unwrap());
    }
    Told { refusal: 0, values: [0, (count * TO) as u64] }
}

pub unsafe extern "C" fn records_to_short(records: *const u8, len: usize, out: *mut u8, out_len: usize) -> Told<2> {
    let (records, out) = unsafe { (slice::from_raw_parts(records, len), slice::from_raw_parts_mut(out, out_len)) };
    moved(records, out, |record| check_to_short(words(record)), |record, out| put_short(words(record), out))
}

fn put_words(words: Layout, out: &mut [u8; 48]) {
    for (bytes, word) in out.chunks_exact_mut(8).zip(words.0) {
        bytes.copy_from_slice(&word.to_le_bytes());
    }
}

pub unsafe extern "C" fn records_from_short(records: *const u8, len: usize, out: *mut u8, out_len: usize) -> Told<2> {
    let (records, out) = unsafe { (slice::from_raw_parts(records, len), slice::from_raw_parts_mut(out, out_len)) };
    moved(records, out, check_short, |record, out| put_words(words_of_short(record), out))
}

// ---- padding over counts ----

fn lowest_terms(numerator: u64, denominator: u64) -> (u64, u64) {
    let (mut divisor, mut rest) = (numerator, denominator);
    while rest != 0 {
        (divisor, rest) = (rest, divisor % rest);
    }
    (numerator / divisor, denominator / divisor)
}

/// One pass, with the parts of the word taken once and checked arithmetic; or the refusal and its place.
#[inline]
fn padding_shares(layout: Trailing, counts: &[u64]) -> Result<[u64; 6], (u64, u64)> {
    let Words([size_base, offset, elem_size, word]) = layout;
    if word == 0 {
        return Err((2, 0));
    }
    if counts.is_empty() {
        return Err((51, 0));
    }
    let align = 1 << word.ilog2();
    let (phase, mask) = (word - align, align - 1);
    if size_base.checked_add((phase + mask) & !mask).is_none() {
        return Err((39, 0));
    }
    let (mut sizes, mut paddings, mut greatest, mut index) = (0u64, 0u64, 0, 0);
    for (place, count) in (0..).zip(counts) {
        let bytes = count.checked_mul(elem_size).ok_or((15, place))?;
        let unrounded = bytes.checked_add(phase + mask).ok_or((15, place))?;
        let size = size_base.checked_add(unrounded & !mask).ok_or((15, place))?;
        let past_offset = size.checked_sub(offset).ok_or((52, place))?;
        let padding = past_offset.checked_sub(bytes).ok_or((52, place))?;
        sizes = sizes.checked_add(size).ok_or((53, place))?;
        // Not above the sum of the sizes.
        paddings += padding;
        if padding > greatest {
            (greatest, index) = (padding, place);
        }
    }
    let padding = if sizes == 0 { (0, 1) } else { lowest_terms(paddings, sizes) };
    let mean = lowest_terms(sizes, counts.len() as u64);
    Ok([padding.0, padding.1, mean.0, mean.1, greatest, index])
}

pub unsafe extern "C" fn padding_of_counts(layout: Trailing, counts: *const u64, counts_len: usize) -> Told<7> {
    match padding_shares(layout, unsafe { slice::from_raw_parts(counts, counts_len) }) {
        Ok([padding, of, mean, over, greatest, index]) => {
            Told { refusal: 0, values: [0, padding, of, mean, over, greatest, index] }
        }
        Err((refusal, place)) => Told { refusal, values: [place, 0, 0, 0, 0, 0, 0] },
    }
}

/// Every list of so many codes, the first code slowest, under each packing.
pub unsafe extern "C" fn write_cases(longest: u64, out: *mut u8, len: usize) -> Told<1> {
    let out = unsafe { slice::from_raw_parts_mut(out, len) };
    if longest > 6 {
        return told(Err(47));
    }
    let needed = 40 * (0..=longest as u32).map(|length| 4usize.pow(length)).sum::<usize>();
    let Some(out) = out.get_mut(..needed) else { return told(Err(48)) };
    let mut records = out.chunks_exact_mut(8);
    for length in 0..=longest as usize {
        let mut codes = [255; 6];
        codes[..length].fill(0);
        loop {
            for packing in [0, 1, 2, 4, 8] {
                let record = records.next().unwrap();
                record[..2].copy_from_slice(&[length as u8, packing]);
                record[2..].copy_from_slice(&codes);
            }
            // The next list: the last code that is not the greatest rises, and those behind it begin anew.
            let Some(at) = codes[..length].iter().rposition(|code| *code < 3) else { break };
            codes[at] += 1;
            codes[at + 1..length].fill(0);
        }
    }
    told(Ok([needed as u64]))
}
