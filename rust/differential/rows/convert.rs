//! Conversions.

use super::{answered, apart, apart_for, layout_of, refused, refused_for, trailing_of, yes_or_no, Row, TRAILING};
use crate::answer::{told, Answer};
use crate::exports::*;
use crate::guarantee;
use crate::kinds::{layout, number, variant};
use crate::layouts::{parts, size_at, source_for, FIXED_KINDS, TRAILING_KINDS};
use crate::random::Random;
use crate::table::{first, is_fixed, two_layouts};
use crate::width::{BITS, M};

pub const ROWS: &[Row] = &[
    Row {
        number: 30,
        name: "size_sequences_match",
        inputs: &[TRAILING, TRAILING, &[number("dst_base")]],
        values: 1,
        cells: &[answered("no"), answered(MULTIPLE), answered(EQUAL_WORDS), apart(2)],
        modifier: None,
        label: |i, answer| match yes_or_no(i, answer) {
            "yes" => which_match(trailing_of(i), trailing_of(&i[4..])),
            no => no,
        },
        pages: &[&[8, 0, 4, 4, 4, 0, 2, 2, 2], &[8, 0, 8, 12, 8, 0, 8, 4, 1]],
        aim: at_a_match,
        ours: |i| lukaripe_size_sequences_match(Words(trailing_of(i)), Words(trailing_of(&i[4..])), i[8]).into(),
        apart: |i| first(&[(2, i[3] == 0), (2, i[7] == 0)]),
        rust: |i| oracle::size_sequences_match(trailing_of(i), trailing_of(&i[4..]), i[8]).into(),
    },
    Row {
        number: 31,
        name: "try_compute",
        inputs: &[&[layout("src"), layout("dst")]],
        values: 4,
        cells: &[
            answered("fixed to fixed"),
            answered("fixed to trailing"),
            answered(FIRST_MULTIPLE),
            answered(FIRST_EQUAL_WORDS),
            answered("second way"),
            refused(25),
            refused(26),
            refused(27),
            refused(28),
            refused(29),
            refused(30),
            refused(31),
            refused(32),
            apart(1),
            apart(2),
            apart(21),
            apart(22),
        ],
        modifier: None,
        label: which_conversion,
        pages: &[
            &[4, 2, 8, 0, 4, 4, 2, 2, 4, 0, 2, 2],
            &[8, 2, 8, 0, 8, 12, 4, 2, 8, 0, 8, 4],
            &[4, 0, 16, 0, 0, 0, 4, 2, 8, 0, 8, 4],
            &[4, 0, 15, 0, 0, 0, 4, 2, 8, 0, 8, 4],
            &[4, 0, 12, 0, 0, 0, 4, 2, 8, 9, 0, 5],
            &[4, 2, 8, 9, 1, 5, 4, 2, 8, 9, 0, 5],
        ],
        aim: at_a_conversion,
        ours: |i| lukaripe_try_compute(Words(layout_of(i)), Words(layout_of(&i[6..]))).into(),
        apart: |i| two_layouts(layout_of(i), layout_of(&i[6..])),
        rust: |i| oracle::try_compute(layout_of(i), layout_of(&i[6..])).into(),
    },
    Row {
        number: 32,
        name: "cast_metadata",
        inputs: &[&[
            variant("kind"),
            number("offset_delta_elems"),
            number("elem_multiple"),
            number("dst_meta"),
            number("src_meta"),
        ]],
        values: 1,
        cells: &[answered("kind 0"), answered("kind 1"), answered("kind 2"), answered("kind above 2"), apart(19)],
        modifier: None,
        label: |i, _| ["kind 0", "kind 1", "kind 2", "kind above 2"][i[0].min(3) as usize],
        pages: &[&[2, 2, 2, 0, 3], &[2, 1, 1, 0, 3], &[1, 0, 0, 1, 3], &[0, 0, 0, 0, 3]],
        aim: at_the_last_count,
        ours: |i| lukaripe_cast_metadata(Words(trailing_of(i)), i[4]).into(),
        apart: |i| first(&[(19, passes_max(params_of(i), i[4]))]),
        rust: |i| converted(params_of(i), i[4]).into(),
    },
    Row {
        number: 33,
        name: "convert_and_cast",
        inputs: &[&[
            layout("src"),
            layout("dst"),
            number("src_meta"),
            number("addr"),
            number("bytes_len"),
            number("more_len"),
        ]],
        values: 12,
        cells: &[
            answered("fixed to fixed, cast as many"),
            answered("fixed to trailing, cast as many"),
            answered("fixed to trailing, cast more"),
            answered("first way, multiple, cast as many"),
            answered("first way, multiple, cast more"),
            answered("first way, equal words, cast as many"),
            answered("first way, equal words, cast more"),
            answered("second way, cast as many"),
            answered("second way, cast more"),
            answered("cast fewer"),
            answered("cast refused"),
            refused_for(25, "cast granted"),
            refused_for(26, "cast granted"),
            refused_for(27, "cast granted"),
            refused_for(28, "cast granted"),
            refused_for(30, "cast granted"),
            refused_for(31, "cast granted"),
            refused_for(32, "cast granted"),
            refused_for(25, "cast refused"),
            refused_for(26, "cast refused"),
            refused_for(27, "cast refused"),
            refused_for(28, "cast refused"),
            refused_for(29, "cast refused"),
            refused_for(30, "cast refused"),
            refused_for(31, "cast refused"),
            refused_for(32, "cast refused"),
            apart_for(0, "count refused 19"),
            apart(1),
            apart(2),
            apart(21),
            apart(22),
        ],
        modifier: None,
        label: which_chain,
        pages: &[
            // Three elements of the first become eight of the second, in 20 bytes.
            &[4, 2, 8, 0, 4, 4, 2, 2, 4, 0, 2, 2, 3, 0, 20, 20],
            &[4, 2, 8, 0, 4, 4, 2, 2, 4, 0, 2, 2, 3, 2, 21, 22],
            &[4, 2, 8, 0, 4, 4, 2, 2, 4, 0, 2, 2, 3, 0, 19, 18],
            &[4, 2, 8, 0, 4, 4, 2, 2, 4, 0, 2, 2, 3, 1, 20, 22],
            // By the second way: three become four, in 40 bytes.
            &[8, 2, 8, 0, 8, 12, 4, 2, 8, 0, 8, 4, 3, 4, 40, 48],
            &[4, 0, 16, 0, 0, 0, 4, 2, 8, 0, 8, 4, 0, 4, 16, 24],
            &[4, 0, 15, 0, 0, 0, 4, 2, 8, 0, 8, 4, 0, 4, 16, 24],
        ],
        aim: at_a_chain,
        ours: kept,
        apart: |i| {
            let refused = two_layouts(layout_of(i), layout_of(&i[6..]));
            refused.map(|layout| all_refused(layout.refusal)).or_else(|| count_past_max(i))
        },
        rust: chain,
    },
];

fn params_of(inputs: &[u64]) -> oracle::Params {
    trailing_of(inputs)
}

/// Whether the converted count of two trailing layouts passes M, over unlimited whole numbers.
fn passes_max([kind, offset_delta_elems, elem_multiple, _]: oracle::Params, src_meta: u64) -> bool {
    let count = u128::from(offset_delta_elems) + u128::from(elem_multiple) * u128::from(src_meta);
    kind > 1 && count > u128::from(M)
}

/// What the Rust says, and where it may not be asked the refusal of the table.
fn converted(params: oracle::Params, src_meta: u64) -> oracle::Says<1> {
    if passes_max(params, src_meta) {
        return Err(19);
    }
    oracle::cast_metadata(params, src_meta)
}

// ---- a conversion and casts after it ----

/// The export, held to the guarantee.
fn kept(inputs: &[u64]) -> Answer {
    let (src, dst) = (Words(layout_of(inputs)), Words(layout_of(&inputs[6..])));
    let answer = lukaripe_convert_and_cast(src, dst, inputs[12], inputs[13], inputs[14], inputs[15]).into();
    Answer { broken: guarantee::broken(inputs, &answer), ..answer }
}

/// The calls of the Rust one after the other: what the first gives goes into the next.
fn chain(inputs: &[u64]) -> Answer {
    let (src, dst) = (layout_of(inputs), layout_of(&inputs[6..]));
    let computed = oracle::try_compute(src, dst);
    let count = computed.and_then(|params| converted(params, inputs[12]));
    let cast = |len| oracle::said(|| oracle::validate_cast_and_convert_metadata(dst, inputs[13], len, false));
    let (first, second) = (told(cast(inputs[14])), told(cast(inputs[15])));
    Carried { computed: told(computed), count: told(count), first, second }.into()
}

/// A layout that is refused refuses all four.
fn all_refused(refusal: u64) -> Answer {
    let (computed, count) = (told(Err(refusal)), told(Err(refusal)));
    Carried { computed, count, first: told(Err(refusal)), second: told(Err(refusal)) }.into()
}

/// A count that the Rust is not asked for; the other three answers are its own.
fn count_past_max(inputs: &[u64]) -> Option<Answer> {
    let params = oracle::try_compute(layout_of(inputs), layout_of(&inputs[6..])).ok()?;
    passes_max(params, inputs[12]).then(|| chain(inputs))
}

// ---- which conversion it is ----

const MULTIPLE: &str = "yes, e a multiple of the larger A";
const EQUAL_WORDS: &str = "yes, equal words";
const FIRST_MULTIPLE: &str = "first way, e a multiple of the larger A";
const FIRST_EQUAL_WORDS: &str = "first way, equal words";

/// Which of its two alternatives makes the sequences match.
fn which_match(src: [u64; 4], dst: [u64; 4]) -> &'static str {
    let larger = parts(src[3]).0.max(parts(dst[3]).0);
    if src[2] % larger == 0 {
        MULTIPLE
    } else {
        EQUAL_WORDS
    }
}

fn which_conversion(inputs: &[u64], answer: &Answer) -> &'static str {
    if answer.refusal != 0 {
        return "";
    }
    let (src, dst) = (trailing_of(&inputs[2..]), trailing_of(&inputs[8..]));
    match answer.values[0] {
        0 => "fixed to fixed",
        1 => "fixed to trailing",
        // With equal words the sizes at 0 are equal exactly where the shift is the difference: that is the first way.
        _ if !by_difference(src, dst, answer.values[1]) => "second way",
        _ if which_match(src, dst) == MULTIPLE => FIRST_MULTIPLE,
        _ => FIRST_EQUAL_WORDS,
    }
}

/// Which conversion it is and what the first cast grants beside the converted count.
fn which_chain(inputs: &[u64], answer: &Answer) -> &'static str {
    let [_, _, _, _, _, count, cast_refusal, cast, ..] = answer.values;
    match (answer.refusal, cast_refusal) {
        (0, 0) if cast < count => "cast fewer",
        (0, 0) => kept_by(which_conversion(inputs, answer), cast > count),
        (_, 0) => "cast granted",
        _ => "cast refused",
    }
}

fn kept_by(conversion: &str, more: bool) -> &'static str {
    match (conversion, more) {
        ("fixed to fixed", false) => "fixed to fixed, cast as many",
        ("fixed to trailing", false) => "fixed to trailing, cast as many",
        ("fixed to trailing", true) => "fixed to trailing, cast more",
        (FIRST_MULTIPLE, false) => "first way, multiple, cast as many",
        (FIRST_MULTIPLE, true) => "first way, multiple, cast more",
        (FIRST_EQUAL_WORDS, false) => "first way, equal words, cast as many",
        (FIRST_EQUAL_WORDS, true) => "first way, equal words, cast more",
        ("second way", false) => "second way, cast as many",
        ("second way", true) => "second way, cast more",
        _ => "no such conversion",
    }
}

/// Whether the shift is the difference of the two `size_offset` values.
fn by_difference(src: [u64; 4], dst: [u64; 4], shift: u64) -> bool {
    let [src_offset] = oracle::size_offset(src).unwrap();
    let [dst_offset] = oracle::size_offset(dst).unwrap();
    u128::from(src_offset) == u128::from(dst_offset) + u128::from(shift) * u128::from(dst[2])
}

// ---- where to aim ----

/// A source that matches the target from a count on, or comes close.
pub fn at_a_match(random: &mut Random, inputs: &mut [u64]) {
    let (src, shift) = source_for(random, trailing_of(&inputs[4..]));
    inputs[..4].copy_from_slice(&src);
    inputs[8] = shift;
    spoil(random, inputs);
}

/// A source that converts to the target, or comes close.
pub fn at_a_conversion(random: &mut Random, inputs: &mut [u64]) {
    let dst = layout_of(&inputs[6..]);
    if is_fixed(dst[1]) {
        inputs[1] = random.one_of(&FIXED_KINDS);
        inputs[2..6].copy_from_slice(&[dst[2], 0, 0, 0]);
    } else if random.one_in(4) {
        let count = random.below(16);
        inputs[1] = random.one_of(&FIXED_KINDS);
        inputs[2..6].copy_from_slice(&[size_at(dst, count), 0, 0, 0]);
    } else {
        let (src, _) = source_for(random, trailing_of(&dst[2..]));
        inputs[1] = random.one_of(&TRAILING_KINDS);
        inputs[2..6].copy_from_slice(&src);
    }
    inputs[0] = inputs[0].max(dst[0]);
    spoil(random, inputs);
}

/// Bytes that hold what a source converts, or come close: the guarantee speaks of these.
fn at_a_chain(random: &mut Random, inputs: &mut [u64]) {
    at_a_conversion(random, &mut inputs[..12]);
    let counts = random.one_of(&[4, 64, 1 << 20, 1 << (BITS - 2)]);
    inputs[12] = random.below(counts);
    let size = size_at(layout_of(inputs), inputs[12]);
    inputs[14] = a_length(random, size, inputs[10]);
    inputs[15] = a_length(random, inputs[14], inputs[10]);
    inputs[13] = an_address(random, inputs[6], inputs[14].max(inputs[15]));
}

/// The size, or next to it, or with room for more, mostly for some elements.
pub fn a_length(random: &mut Random, size: u64, elem_size: u64) -> u64 {
    match random.below(4) {
        0 => size,
        1 => random.near(size),
        2 => size.wrapping_add(random.below(4).wrapping_mul(elem_size)),
        _ => size.wrapping_add(random.below(1 << 12)),
    }
}

/// Mostly aligned; or such that as many bytes end at M, or just past it.
pub fn an_address(random: &mut Random, align: u64, len: u64) -> u64 {
    match random.below(8) {
        0 => random.near(M.wrapping_sub(len)),
        1 => M.wrapping_sub(len) & align.wrapping_neg(),
        2 => random.near(align),
        _ => align.wrapping_mul(random.below(1 << 8)),
    }
}

/// Changes one number a little, in one case of four.
pub fn spoil(random: &mut Random, inputs: &mut [u64]) {
    if random.one_in(4) {
        let at = random.below(inputs.len() as u64) as usize;
        inputs[at] = random.near(inputs[at]);
    }
}

/// The greatest source count whose converted count exists.
fn at_the_last_count(random: &mut Random, inputs: &mut [u64]) {
    inputs[4] = random.near((M - inputs[1]) / inputs[2].max(1));
}
