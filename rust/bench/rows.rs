//! The table of functions: how each side of one is called on a case.

use super::cases::*;
use super::exports::*;
use super::refused::*;
use super::Word;
use crate::bench::go_through;
use crate::bench::row::{Answer, Row, Side, Spoil};
use crate::bench::sets::Set;
#[cfg(not(bits32))]
use crate::bench::{describe, full, plain, tested};
#[cfg(not(bits32))]
use crate::RoundingAlignAndPhase;
use core::cell::Cell;
use std::rc::Rc;

/// Of a row: its name, the cases of a set, and how they are spoilt.
type Head = (&'static str, fn(Set) -> Vec<Case>, &'static [Spoil<Case>]);

fn side<F: Copy + 'static, T: Answer>(function: F, call: impl Fn(F, &Case) -> T + Copy + 'static) -> Side<Case> {
    Side {
        go: Rc::new(move |cases, times| go_through(cases, times, function, call)),
        given: Some(Rc::new(move |case| case.given(|case| call(function, case)))),
    }
}

/// At 64 bits: the export, the Rust as it is, and the Rust with the refusals tested.
#[cfg(not(bits32))]
impl Row<Case> {
    /// A row by the export and the tested Rust, which are of one type and are called by the same code.
    fn new<F: Copy + 'static, T: Answer>(
        (name, cases, spoils): Head,
        [export, tested]: [F; 2],
        call: impl Fn(F, &Case) -> T + Copy + 'static,
    ) -> Row<Case> {
        Row { name, cases, spoils, sides: vec![Some(side(export, call)), None, Some(side(tested, call))] }
    }

    fn rust<F: Copy + 'static, T>(mut self, function: F, call: impl Fn(F, &Case) -> T + Copy + 'static) -> Row<Case> {
        let go = Rc::new(move |cases: &[Case], times| go_through(cases, times, function, call));
        self.sides[1] = Some(Side { go, given: None });
        self
    }
}

/// A row: the two functions, how they are called on a case, and the same for the Rust as it is, where it has the like.
#[cfg(not(bits32))]
macro_rules! row {
    ($name:literal, $cases:expr, $spoils:expr, $f:ident, $c:ident =>
        $functions:expr, $call:expr; $($rust:expr, $rust_call:expr)?) => {{
        // Pointers to functions, each of which has a type of its own.
        let functions = $functions;
        Some(Row::new(($name, $cases, $spoils), functions, |$f, $c| $call)$(.rust($rust, |$f, $c| $rust_call))?)
    }};
}

/// The same where two widths are compared: the export of this one alone, and nothing of the Rust.
#[cfg(bits32)]
macro_rules! row {
    ($name:literal, $cases:expr, $spoils:expr, $f:ident, $c:ident =>
        [$export:ident $(, $tested:expr)?], $call:expr; $($rust:expr, $rust_call:expr)?) => {{
        let (name, cases, spoils): Head = ($name, $cases, $spoils);
        Some(Row { name, cases, spoils, sides: vec![Some(side($export, |$f, $c| $call))] })
    }};
}

/// A row of what has no width, and so is not compared by it.
macro_rules! row64 {
    ($($row:tt)*) => {{
        #[cfg(not(bits32))]
        let row = row!($($row)*);
        #[cfg(bits32)]
        let row = None;
        row
    }};
}

/// A row of what is set beside nothing but the other width.
macro_rules! row32 {
    ($($row:tt)*) => {{
        #[cfg(bits32)]
        let row = row!($($row)*);
        #[cfg(not(bits32))]
        let row = None;
        row
    }};
}

impl<const N: usize> Answer for Told<N> {
    fn refusal(&self) -> u64 {
        self.refusal
    }

    fn values(&self) -> Vec<u64> {
        self.values.map(u64::from).to_vec()
    }
}

/// What is given, and what a lent layout holds afterwards.
impl Answer for (u64, [Word; 6]) {
    fn refusal(&self) -> u64 {
        self.0
    }

    fn values(&self) -> Vec<u64> {
        self.1.map(u64::from).to_vec()
    }
}

/// The refusal of the conversion, or else of what comes after it.
impl Answer for Carried {
    fn refusal(&self) -> u64 {
        let refusals = [self.computed.refusal, self.count.refusal, self.first.refusal, self.second.refusal];
        refusals.into_iter().find(|refusal| *refusal != 0).unwrap_or(0)
    }

    fn values(&self) -> Vec<u64> {
        let casts = [self.first.values(), self.second.values()].concat();
        [self.computed.values(), self.count.values(), casts].concat()
    }
}

pub fn rows() -> Vec<Row<Case>> {
    let rows = vec![
        row!("is_power_of_two", cases, &[], f, c =>
            [lukaripe_is_power_of_two, tested::is_power_of_two], f(c.align);
            plain::is_power_of_two as fn(_) -> _, f(c.align as usize)),
        row!("padding_needed_for", cases, ALIGN, f, c =>
            [lukaripe_padding_needed_for, tested::padding_needed_for], f(c.len, c.align);
            plain::padding_needed_for as fn(_, _) -> _, f(c.len as usize, c.n.align)),
        row!("round_down_to_next_multiple_of_alignment", cases, ALIGN, f, c =>
            [lukaripe_round_down_to_next_multiple_of_alignment, tested::round_down_to_next_multiple_of_alignment],
            f(c.len, c.align);
            plain::round_down_to_next_multiple_of_alignment as fn(_, _) -> _, f(c.len as usize, c.n.align)),
        row!("max", cases, ALIGNS, f, c =>
            [lukaripe_max, tested::max], f(c.align, c.other_align);
            plain::max as fn(_, _) -> _, f(c.n.align, c.n.other_align)),
        row!("min", cases, ALIGNS, f, c =>
            [lukaripe_min, tested::min], f(c.align, c.other_align);
            plain::min as fn(_, _) -> _, f(c.n.align, c.n.other_align)),
        row!("rounding_new", cases, ROUNDING, f, c =>
            [lukaripe_rounding_new, tested::rounding_new], f(c.align, c.phase);
            plain::rounding_new as fn(_, _) -> _, f(c.n.align, c.phase as usize)),
        row!("rounding_components", cases, TAIL, f, c =>
            [lukaripe_rounding_components, tested::rounding_components], f(c.tail.0[3]);
            plain::rounding_components as fn(_) -> _, f(word(c))),
        row!("rounding_align", cases, TAIL, f, c =>
            [lukaripe_rounding_align, tested::rounding_align], f(c.tail.0[3]);
            plain::rounding_align as fn(_) -> _, f(word(c))),
        row!("size_offset", cases, TAIL, f, c =>
            [lukaripe_size_offset, tested::size_offset], f(c.tail);
            plain::size_offset as fn(_) -> _, f(c.n.tail)),
        row!("max_trailing_bytes", cases, ROOM, f, c =>
            [lukaripe_max_trailing_bytes, tested::max_trailing_bytes], f(c.tail, c.len);
            plain::max_trailing_bytes as fn(_, _) -> _, f(c.n.tail, c.len as usize)),
        row!("padding_for_elems", cases, TAIL, f, c =>
            [lukaripe_padding_for_elems, tested::padding_for_elems], f(c.tail, c.count);
            plain::padding_for_elems as fn(_, _) -> _, f(c.n.tail, c.count as usize)),
        row!("size_for_elems", cases, COUNT, f, c =>
            [lukaripe_size_for_elems, tested::size_for_elems], f(c.tail, c.count);
            plain::size_for_elems as fn(_, _) -> _, f(c.n.tail, c.count as usize)),
        row!("advance", cases, ADVANCE, f, c =>
            [lukaripe_advance, tested::advance], f(c.tail, c.size, c.align);
            plain::advance as fn(_, _, _) -> _, f(c.n.tail, c.size as usize, c.align as usize)),
        row!("has_same_size_sequence", cases, TAILS, f, c =>
            [lukaripe_has_same_size_sequence, tested::has_same_size_sequence], f(c.tail, c.other_tail);
            plain::has_same_size_sequence as fn(_, _) -> _, f(c.n.tail, c.n.other_tail)),
        row!("sizes_agree", cases, TAILS, f, c =>
            [lukaripe_sizes_agree, full::sizes_agree], f(c.tail, c.other_tail);),
        row!("normal_form", cases, FORM, f, c =>
            [lukaripe_normal_form, full::normal_form], f(c.tail);),
        row!("padding_of_counts, 10 counts", |set| counts(set, 10), COUNTS, f, c =>
            [lukaripe_padding_of_counts, tested::padding_of_counts],
            unsafe { f(c.tail, c.counts.as_ptr(), c.counts.len()) };),
        row!("padding_of_counts, 1000 counts", |set| counts(set, 1000), COUNTS, f, c =>
            [lukaripe_padding_of_counts, tested::padding_of_counts],
            unsafe { f(c.tail, c.counts.as_ptr(), c.counts.len()) };),
        row!("padding_of_counts, 100000 counts", |set| counts(set, 100_000), COUNTS, f, c =>
            [lukaripe_padding_of_counts, tested::padding_of_counts],
            unsafe { f(c.tail, c.counts.as_ptr(), c.counts.len()) };),
        row!("padding_of_counts, 1000000 counts", |set| counts(set, 1_000_000), COUNTS, f, c =>
            [lukaripe_padding_of_counts, tested::padding_of_counts],
            unsafe { f(c.tail, c.counts.as_ptr(), c.counts.len()) };),
        row!("new_zst", cases, ASKED, f, c =>
            [lukaripe_new_zst, tested::new_zst], f(c.packing);
            plain::new_zst as fn(_) -> _, f(c.n.packing)),
        row!("for_type", cases, TYPE, f, c =>
            [lukaripe_for_type, tested::for_type], f(c.size, c.align);
            plain::for_type as fn(_, _) -> _, f(c.size as usize, c.align as usize)),
        row!("for_unpadded_type", cases, TYPE, f, c =>
            [lukaripe_for_unpadded_type, tested::for_unpadded_type], f(c.size, c.align);
            plain::for_unpadded_type as fn(_, _) -> _, f(c.size as usize, c.align as usize)),
        row!("for_slice", cases, TYPE, f, c =>
            [lukaripe_for_slice, tested::for_slice], f(c.size, c.align);
            plain::for_slice as fn(_, _) -> _, f(c.size as usize, c.align as usize)),
        row!("extend", cases, EXTEND, f, c =>
            [lukaripe_extend, tested::extend], f(c.fixed, c.field, c.packing);
            plain::extend as fn(_, _, _) -> _, f(c.n.fixed, c.n.field, c.n.packing)),
        row!("pad_to_align", cases, PAD, f, c =>
            [lukaripe_pad_to_align, tested::pad_to_align], f(c.whole);
            plain::pad_to_align as fn(_) -> _, f(c.n.whole)),
        row!("requires_static_padding", cases, WHOLE, f, c =>
            [lukaripe_requires_static_padding, tested::requires_static_padding], f(c.whole);
            plain::requires_static_padding as fn(_) -> _, f(c.n.whole)),
        row!("requires_dynamic_padding", cases, WHOLE, f, c =>
            [lukaripe_requires_dynamic_padding, tested::requires_dynamic_padding], f(c.whole);
            plain::requires_dynamic_padding as fn(_) -> _, f(c.n.whole)),
        row!("decode", cases, DECODE, f, c =>
            [lukaripe_decode, tested::decode], unsafe { f(c.record.as_ptr(), c.record.len()) };),
        row!("encode", cases, ENCODE, f, c =>
            [lukaripe_encode, tested::encode],
            written::<48>(c.room, |out| unsafe { f(c.whole, out.as_mut_ptr(), out.len()) });),
        row!("scalar", cases, SCALAR, f, c =>
            [lukaripe_scalar, tested::scalar], f(c.code);
            plain::scalar as fn(_) -> _, f(c.code)),
        row!("compose, 10 members", |set| lists(set, 10), COMPOSE, f, c =>
            [lukaripe_compose, tested::compose], unsafe { f(c.own_align, c.packing, c.list.as_ptr(), c.list.len()) };
            plain::compose as fn(_, _, &[_]) -> _, f(None, c.n.packing, &c.n.list)),
        row!("for_repr_c_struct, 1 member", |set| lists(set, 1), STRUCT_OF_ONE, f, c =>
            [lukaripe_for_repr_c_struct, tested::for_repr_c_struct],
            unsafe { f(c.own_align, c.packing, c.list.as_ptr(), c.list.len()) };
            plain::for_repr_c_struct as fn(_, _, &[_]) -> _, f(None, c.n.packing, &c.n.list)),
        row!("for_repr_c_struct, 10 members", |set| lists(set, 10), STRUCT, f, c =>
            [lukaripe_for_repr_c_struct, tested::for_repr_c_struct],
            unsafe { f(c.own_align, c.packing, c.list.as_ptr(), c.list.len()) };
            plain::for_repr_c_struct as fn(_, _, &[_]) -> _, f(None, c.n.packing, &c.n.list)),
        row!("for_repr_c_struct, 100 members", |set| lists(set, 100), STRUCT, f, c =>
            [lukaripe_for_repr_c_struct, tested::for_repr_c_struct],
            unsafe { f(c.own_align, c.packing, c.list.as_ptr(), c.list.len()) };
            plain::for_repr_c_struct as fn(_, _, &[_]) -> _, f(None, c.n.packing, &c.n.list)),
        row!("for_repr_c_struct, 1365 members", |set| lists(set, 1365), STRUCT, f, c =>
            [lukaripe_for_repr_c_struct, tested::for_repr_c_struct],
            unsafe { f(c.own_align, c.packing, c.list.as_ptr(), c.list.len()) };
            plain::for_repr_c_struct as fn(_, _, &[_]) -> _, f(None, c.n.packing, &c.n.list)),
        row!("for_repr_c_struct_strict, 10 members", |set| lists(set, 10), STRICT, f, c =>
            [lukaripe_for_repr_c_struct_strict, tested::for_repr_c_struct_strict],
            unsafe { f(c.own_align, c.packing, c.list.as_ptr(), c.list.len()) };),
        row!("for_repr_c_struct_strict, 1365 members", |set| lists(set, 1365), STRICT, f, c =>
            [lukaripe_for_repr_c_struct_strict, tested::for_repr_c_struct_strict],
            unsafe { f(c.own_align, c.packing, c.list.as_ptr(), c.list.len()) };),
        row!("for_repr_c_struct_places, 10 members", |set| lists(set, 10), PLACES, f, c =>
            [lukaripe_for_repr_c_struct_places, tested::for_repr_c_struct_places], placed(c, f);),
        row!("for_repr_c_struct_places, 1365 members", |set| lists(set, 1365), PLACES, f, c =>
            [lukaripe_for_repr_c_struct_places, tested::for_repr_c_struct_places], placed(c, f);),
        row!("working_begin", cases, ASKED, f, c =>
            [lukaripe_working_begin, tested::new_zst], f(c.packing);
            plain::new_zst as fn(_) -> _, f(c.n.packing)),
        row!("working_add", cases, EXTEND, f, c =>
            [lukaripe_working_add, tested::working_add], altered(c.fixed, |lent| f(lent, c.field, c.packing));
            plain::extend as fn(_, _, _) -> _, f(c.n.fixed, c.n.field, c.n.packing)),
        row!("working_add_record", cases, ADD_RECORD, f, c =>
            [lukaripe_working_add_record, tested::working_add_record],
            altered(c.fixed, |lent| unsafe { f(lent, c.member.as_ptr(), c.member.len(), c.packing) });
            plain::extend as fn(_, _, _) -> _, f(c.n.fixed, c.n.field, c.n.packing)),
        row!("working_add, 10 members", |set| lists(set, 10), ADDITIONS, f, c =>
            [lukaripe_working_add, tested::working_add],
            altered(EMPTY, |lent| each(&c.members, |member| f(lent, *member, c.packing)));
            plain::compose as fn(_, _, &[_]) -> _, f(None, c.n.packing, &c.n.list)),
        row!("working_add_record, 10 members", |set| lists(set, 10), ADDITIONS, f, c =>
            [lukaripe_working_add_record, tested::working_add_record],
            altered(EMPTY, |lent| each(c.list.chunks_exact(48), |record| unsafe {
                f(lent, record.as_ptr(), record.len(), c.packing)
            }));
            plain::compose as fn(_, _, &[_]) -> _, f(None, c.n.packing, &c.n.list)),
        row!("read, 10 members", |set| descriptions(set, 10), READ, f, c =>
            [lukaripe_read, describe::read], unsafe { f(c.description.as_ptr(), c.description.len()) };),
        row!("read, 254 members", |set| descriptions(set, 254), READ, f, c =>
            [lukaripe_read, describe::read], unsafe { f(c.description.as_ptr(), c.description.len()) };),
        row!("read, 15 deep", |set| descriptions(set, 0), READ, f, c =>
            [lukaripe_read, describe::read], unsafe { f(c.description.as_ptr(), c.description.len()) };),
        row!("for_array", cases, ARRAY, f, c =>
            [lukaripe_for_array, tested::for_array], f(c.fixed, c.code);),
        row!("for_slice_of", cases, SLICE, f, c =>
            [lukaripe_for_slice_of, tested::for_slice_of], f(c.fixed);),
        row!("decode_short", cases, DECODE_SHORT, f, c =>
            [lukaripe_decode_short, tested::decode_short], unsafe { f(c.short.as_ptr(), c.short.len()) };),
        row!("encode_short", cases, ENCODE_SHORT, f, c =>
            [lukaripe_encode_short, tested::encode_short],
            written::<32>(c.short_room, |out| unsafe { f(c.whole, out.as_mut_ptr(), out.len()) });),
        row64!("records_to_short, 10 records", |set| moves(set, 10), TO_SHORT, f, c =>
            [lukaripe_records_to_short, tested::records_to_short], moved(&c.records, &c.shorts_room, f);),
        row64!("records_to_short, 100000 records", |set| moves(set, 100_000), TO_SHORT, f, c =>
            [lukaripe_records_to_short, tested::records_to_short], moved(&c.records, &c.shorts_room, f);),
        row64!("records_from_short, 10 records", |set| moves(set, 10), FROM_SHORT, f, c =>
            [lukaripe_records_from_short, tested::records_from_short], moved(&c.shorts, &c.records_room, f);),
        row64!("records_from_short, 100000 records", |set| moves(set, 100_000), FROM_SHORT, f, c =>
            [lukaripe_records_from_short, tested::records_from_short], moved(&c.shorts, &c.records_room, f);),
        row!("lengthen_counts, 10 members", |set| to_lengthen(set, 10), LENGTHEN, f, c =>
            [lukaripe_lengthen_counts, describe::lengthen_counts], moved(&c.description, &c.shorts_room, f);),
        row!("lengthen_counts, 254 members", |set| to_lengthen(set, 254), LENGTHEN, f, c =>
            [lukaripe_lengthen_counts, describe::lengthen_counts], moved(&c.description, &c.shorts_room, f);),
        row!("lengthen_counts, 15 deep", |set| to_lengthen(set, 0), LENGTHEN, f, c =>
            [lukaripe_lengthen_counts, describe::lengthen_counts], moved(&c.description, &c.shorts_room, f);),
        row!("shorten_counts, 10 members", |set| to_shorten(set, 10), SHORTEN, f, c =>
            [lukaripe_shorten_counts, describe::shorten_counts], moved(&c.description, &c.shorts_room, f);),
        row!("shorten_counts, 254 members", |set| to_shorten(set, 254), SHORTEN, f, c =>
            [lukaripe_shorten_counts, describe::shorten_counts], moved(&c.description, &c.shorts_room, f);),
        row!("shorten_counts, 15 deep", |set| to_shorten(set, 0), SHORTEN, f, c =>
            [lukaripe_shorten_counts, describe::shorten_counts], moved(&c.description, &c.shorts_room, f);),
        row64!("write_cases, up to 3 members", |set| moves(set, 107), CASES, f, c =>
            [lukaripe_write_cases, tested::write_cases], wrote(3, &c.shorts_room, f);),
        row64!("write_cases, up to 6 members", |set| moves(set, 6_827), CASES, f, c =>
            [lukaripe_write_cases, tested::write_cases], wrote(6, &c.shorts_room, f);),
        row!("validate_cast_and_convert_metadata", cases, CAST, f, c =>
            [lukaripe_validate_cast_and_convert_metadata, tested::validate_cast_and_convert_metadata],
            f(c.whole, c.addr, c.len, c.suffix);
            plain::validate_cast_and_convert_metadata as fn(&_, _, _, _) -> _,
            f(&c.n.whole, c.addr as usize, c.len as usize, c.n.side)),
        row!("metadata_for_exact_size", cases, EXACT, f, c =>
            [lukaripe_metadata_for_exact_size, tested::metadata_for_exact_size], f(c.whole, c.exact);
            plain::metadata_for_exact_size as fn(&_, _) -> _, f(&c.n.whole, c.exact as usize)),
        row!("which_serves", cases, SERVING, f, c =>
            [lukaripe_which_serves, tested::which_serves], f(c.whole, 0, c.len.into(), c.align, c.len.into());),
        row!("size_sequences_match", cases, SOURCE_TAIL, f, c =>
            [lukaripe_size_sequences_match, tested::size_sequences_match], f(c.source_tail, c.tail, c.shift);
            plain::size_sequences_match as fn(_, _, _) -> _, f(c.n.source_tail, c.n.tail, c.shift as usize)),
        row!("try_compute", cases, CONVERT, f, c =>
            [lukaripe_try_compute, tested::try_compute], f(c.source, c.whole);
            plain::try_compute as fn(&_, &_) -> _, f(&c.n.source, &c.n.whole)),
        row!("size_sequences_match_full", cases, SOURCE_TAIL, f, c =>
            [lukaripe_size_sequences_match_full, full::size_sequences_match], f(c.source_tail, c.tail, c.shift);),
        row!("try_compute_full", cases, CONVERT, f, c =>
            [lukaripe_try_compute_full, full::try_compute], f(c.source, c.whole);),
        row!("try_compute_full, gained", gained, APART, f, c =>
            [lukaripe_try_compute_full, full::try_compute], f(c.source, c.whole);),
        row!("cast_metadata", cases, CONVERTED, f, c =>
            [lukaripe_cast_metadata, tested::cast_metadata], f(c.params, c.code);
            plain::cast_metadata as fn(_, _) -> _, f(c.n.params(), c.code as usize)),
        row32!("convert_and_cast", cases, CONVERT, f, c =>
            [lukaripe_convert_and_cast], f(c.source, c.whole, c.code, 0, c.exact, c.len);),
        row32!("convert_and_cast_full", cases, CONVERT, f, c =>
            [lukaripe_convert_and_cast_full], f(c.source, c.whole, c.code, 0, c.exact, c.len);),
    ];
    rows.into_iter().flatten().collect()
}

#[cfg(not(bits32))]
fn word(case: &Case) -> RoundingAlignAndPhase {
    case.n.tail.size_rounding_align_and_phase
}

/// What is given and what is written.
#[inline(always)]
fn written<const N: usize>(room: usize, write: impl FnOnce(&mut [u8]) -> u64) -> (u64, [u8; N]) {
    let mut out = [0; N];
    (write(&mut out[..room]), out)
}

type Move<T> = unsafe extern "C" fn(*const u8, usize, *mut u8, usize) -> T;

#[inline(always)]
fn moved<T>(records: &[u8], room: &[Cell<u8>], by: Move<T>) -> T {
    // SAFETY: the bytes are as many as said, and cells may be written.
    unsafe { by(records.as_ptr(), records.len(), room.as_ptr() as *mut u8, room.len()) }
}

#[cfg(not(bits32))]
type Write = unsafe extern "C" fn(u64, *mut u8, usize) -> Told<1>;

#[cfg(not(bits32))]
#[inline(always)]
fn wrote(longest: u64, room: &[Cell<u8>], by: Write) -> Told<1> {
    // SAFETY: the bytes are as many as said, and cells may be written.
    unsafe { by(longest, room.as_ptr() as *mut u8, room.len()) }
}

type Places<T> = unsafe extern "C" fn(Word, Word, *const u8, usize, *mut Word, usize, *mut Word, usize) -> T;

/// The numbers are written to the case's own.
#[inline(always)]
fn placed<T>(case: &Case, by: Places<T>) -> T {
    let numbers = |lent: &[Cell<Word>]| (lent.as_ptr() as *mut Word, lent.len());
    let ((places, places_len), (gaps, gaps_len)) = (numbers(&case.places), numbers(&case.gaps));
    let list = &case.list;
    // SAFETY: bytes and numbers are as many as said, and cells may be written.
    unsafe { by(case.own_align, case.packing, list.as_ptr(), list.len(), places, places_len, gaps, gaps_len) }
}

/// The layout that a struct begins with.
const EMPTY: Layout = Words([1, 1, 0, 0, 0, 0]);

/// What is given, and what a lent layout holds afterwards.
#[inline(always)]
fn altered(lent: Layout, add: impl FnOnce(&mut Layout) -> u64) -> (u64, [Word; 6]) {
    let mut lent = lent;
    (add(&mut lent), lent.0)
}

/// The first refusal of an addition of each, or 0.
#[inline(always)]
fn each<T>(members: impl IntoIterator<Item = T>, mut add: impl FnMut(T) -> u64) -> u64 {
    members.into_iter().map(&mut add).find(|refusal| *refusal != 0).unwrap_or(0)
}
