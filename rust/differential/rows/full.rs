//! The full comparison of sizes, normal forms, and conversions in the full mode. The Rust has none of them.

use super::{apart, layout_of, no_label, trailing_of, Row, TRAILING};
use crate::answer::{told, Answer};
use crate::exports::*;
use crate::full;
use crate::kinds::{layout, number};
use crate::layouts::size_at;
use crate::plain_full::{agree, converts, matches, normal_form, Sizes};
use crate::random::Random;
use crate::rows::convert::{a_length, an_address, at_a_conversion, at_a_match, spoil};
use crate::table::{first, is_fixed, two_layouts};
use crate::width::{BITS, M, TOP};

pub const ROWS: &[Row] = &[
    Row {
        number: 43,
        name: "sizes_agree",
        inputs: &[TRAILING, TRAILING],
        values: 1,
        cells: &[apart(0), apart(2)],
        modifier: None,
        label: no_label,
        pages: &[&[0, 0, 4, 9, 0, 0, 4, 10], &[M - 7, 0, 1, 9, M - 7, 3, 1, 9], &[0, 0, 4, 13, 8, 0, 4, 8]],
        aim: at_equal_sizes,
        ours: full::compared,
        apart: |i| {
            let (one, other) = (trailing_of(i), trailing_of(&i[4..]));
            let refused = first(&[(2, i[3] == 0), (2, i[7] == 0)]);
            refused.or_else(|| Some(Answer::of([agree(Sizes::of(one), Sizes::of(other)).into()])))
        },
        rust: unasked,
    },
    Row {
        number: 44,
        name: "normal_form",
        inputs: &[TRAILING],
        values: 3,
        cells: &[apart(0), apart(2), apart(46)],
        modifier: None,
        label: no_label,
        pages: &[
            &[0, 0, 4, 9],
            &[0, 0, 4, 10],
            &[0, 0, 4, 13],
            &[8, 9, 4, 5],
            &[M, 0, 4, 9],
            &[M, 0, 4, 13],
            &[M - 8, 0, 4, 13],
            &[M - 7, 0, 4, 13],
            &[TOP, 0, 0, 3 << (BITS - 2)],
        ],
        aim: at_a_form,
        ours: full::formed,
        apart: |i| Some(normal_form(trailing_of(i)).map_or_else(Answer::refused, Answer::of)),
        rust: unasked,
    },
    Row {
        number: 45,
        name: "size_sequences_match_full",
        inputs: &[TRAILING, TRAILING, &[number("dst_base")]],
        values: 1,
        cells: &[apart(0), apart(2)],
        modifier: None,
        label: no_label,
        pages: &[
            &[0, 0, 2, 7, 0, 0, 2, 4, 2],
            &[18, 3, 8, 28, 18, 5, 8, 18, 1],
            &[34, 0, 24, 58, 2, 0, 8, 32, 8],
            &[34, 0, 24, 58, 2, 0, 8, 32, 7],
            &[M - 7, 0, 1, 9, M - 7, 0, 1, 9, 0],
        ],
        aim: |random, inputs| {
            at_a_match(random, inputs);
            disguise(random, &mut inputs[..4]);
            spoil(random, inputs);
        },
        ours: full::matched,
        apart: |i| {
            let (src, dst) = (trailing_of(i), trailing_of(&i[4..]));
            let refused = first(&[(2, i[3] == 0), (2, i[7] == 0)]);
            refused.or_else(|| Some(Answer::of([matches(Sizes::of(src), Sizes::of(dst), i[8].into()).into()])))
        },
        rust: unasked,
    },
    Row {
        number: 46,
        name: "try_compute_full",
        inputs: &[&[layout("src"), layout("dst")]],
        values: 4,
        cells: &[
            apart(0),
            apart(1),
            apart(2),
            apart(21),
            apart(22),
            apart(25),
            apart(26),
            apart(27),
            apart(28),
            apart(29),
            apart(30),
            apart(31),
            apart(32),
        ],
        modifier: None,
        label: no_label,
        pages: GAINED,
        aim: at_a_full_conversion,
        ours: full::converted,
        apart: |i| {
            let (src, dst) = (layout_of(i), layout_of(&i[6..]));
            two_layouts(src, dst).or_else(|| Some(converts(src, dst).into()))
        },
        rust: unasked,
    },
    Row {
        number: 47,
        name: "convert_and_cast_full",
        inputs: &[&[
            layout("src"),
            layout("dst"),
            number("src_meta"),
            number("addr"),
            number("bytes_len"),
            number("more_len"),
        ]],
        values: 12,
        cells: &[
            apart(0),
            apart(1),
            apart(2),
            apart(21),
            apart(22),
            apart(25),
            apart(26),
            apart(27),
            apart(28),
            apart(29),
            apart(30),
            apart(31),
            apart(32),
        ],
        modifier: None,
        label: no_label,
        pages: &[
            // Three elements of the first are five of the second, in 12 bytes.
            &[1, 2, 0, 0, 2, 7, 1, 2, 0, 0, 2, 4, 3, 0, 12, 17],
            &[1, 2, 0, 0, 2, 7, 1, 2, 0, 0, 2, 4, 3, 0, 11, 12],
            &[2, 6, 5, 1, 34, 52, 2, 2, 5, 9, 17, 34, 4, 6, 165, 165],
            &[1, 2, 34, 0, 24, 58, 1, 3, 2, 0, 8, 32, 2, 3, 132, 140],
            &[4, 2, 37, 0, 36, 61, 4, 7, 5, 0, 9, 32, 1, 8, 101, 200],
            &[8, 2, 0, 0, 4, 9, 8, 2, 0, 0, 4, 10, 3, 0, 24, 24],
            // The count passes M.
            &[1, 2, 0, 0, 2, 7, 1, 2, 0, 0, 2, 4, M, 0, 12, 17],
        ],
        aim: at_a_full_chain,
        ours: full::carried,
        apart: |i| Some(chain(i)),
        rust: unasked,
    },
];

/// Pairs that the full mode alone converts, and ones that neither does.
const GAINED: &[&[u64]] = &[
    &[1, 2, 0, 0, 2, 7, 1, 2, 0, 0, 2, 4],
    &[1, 2, 0, 0, 6, 5, 1, 2, 0, 0, 3, 6],
    &[8, 2, 30, 0, 2, 4, 8, 2, 2, 0, 2, 5],
    &[8, 3, 18, 3, 8, 28, 4, 2, 18, 5, 8, 18],
    &[2, 6, 5, 1, 34, 52, 2, 2, 5, 9, 17, 34],
    &[1, 2, 34, 0, 24, 58, 1, 3, 2, 0, 8, 32],
    &[4, 2, 37, 0, 36, 61, 4, 7, 5, 0, 9, 32],
    &[1, 2, 10, 0, 12, 61, 1, 2, 10, 0, 2, 44],
    &[1, 2, 1, 0, 24, 26, 1, 2, 1, 0, 1, 29],
    &[8, 2, 0, 0, 4, 9, 8, 2, 0, 0, 4, 10],
    &[8, 2, 0, 0, 4, 10, 8, 2, 0, 0, 4, 9],
    &[1, 2, M - 7, 0, 1, 9, 1, 2, M - 7, 0, 1, 9],
];

fn unasked(_: &[u64]) -> Answer {
    unreachable!("the Rust has no such function")
}

/// The conversion by the second implementation, its count, and the casts of the Rust.
fn chain(inputs: &[u64]) -> Answer {
    let (src, dst) = (layout_of(inputs), layout_of(&inputs[6..]));
    if let Some(Answer { refusal, .. }) = two_layouts(src, dst) {
        let (computed, count) = (told(Err(refusal)), told(Err(refusal)));
        return Carried { computed, count, first: told(Err(refusal)), second: told(Err(refusal)) }.into();
    }
    let computed = converts(src, dst);
    let count = computed.and_then(|[kind, shift, multiple, meta]| match kind {
        0 => Ok([0]),
        1 => Ok([meta]),
        _ => {
            let count = u128::from(shift) + u128::from(multiple) * u128::from(inputs[12]);
            if count <= M.into() {
                Ok([count as u64])
            } else {
                Err(19)
            }
        }
    });
    let cast = |len| oracle::said(|| oracle::validate_cast_and_convert_metadata(dst, inputs[13], len, false));
    let (first, second) = (told(cast(inputs[14])), told(cast(inputs[15])));
    Carried { computed: told(computed), count: told(count), first, second }.into()
}

// ---- where to aim ----

/// Elements that are a multiple of a power of two below the alignment, so that several phases give the same sizes, or
/// of the alignment.
fn even_elems(random: &mut Random, layout: &mut [u64]) {
    let power = layout[3].checked_ilog2().unwrap_or(0);
    let odd = match random.below(3) {
        0 => random.below(16),
        1 => random.log_uniform() >> 1,
        _ => layout[2],
    };
    layout[2] = (odd | 1).wrapping_shl(random.below(u64::from(power) + 2) as u32);
}

/// Another base and word with the same sizes.
fn disguise(random: &mut Random, layout: &mut [u64]) {
    let [size_base, _, elem_size, word] = trailing_of(layout);
    let align = 1 << word.checked_ilog2().unwrap_or(0);
    let phase = word & (align - 1);
    let step = elem_size & elem_size.wrapping_neg();
    if elem_size & (align - 1) == 0 {
        // Any alignment that divides the element size.
        let powers = if step == 0 { BITS } else { u64::from(step.ilog2()) + 1 };
        let other = 1 << random.below(powers);
        let size = size_base.wrapping_add(if phase == 0 { 0 } else { align });
        let phase = random.next() & (other - 1);
        layout[0] = size.wrapping_sub(if phase == 0 { 0 } else { other });
        layout[3] = other + phase;
        return;
    }
    let end = phase.wrapping_add(step - 1) & !(step - 1);
    let others = end.wrapping_sub(random.below(step));
    match (phase, end) {
        // A block of the base for a phase that fills it, or the other way round.
        (0, _) => {
            let phase = random.below(step);
            layout[0] = size_base.wrapping_sub(if phase == 0 { 0 } else { align });
            layout[3] = align + (align - phase) % align;
        }
        (_, end) if end == align && (random.one_in(2) || others == align) => {
            layout[0] = size_base.wrapping_add(align);
            layout[3] = align;
        }
        _ => layout[3] = align + (others & (align - 1)),
    }
}

/// The same sizes in another disguise, mostly.
fn at_equal_sizes(random: &mut Random, inputs: &mut [u64]) {
    if random.one_in(2) {
        even_elems(random, inputs);
    }
    let (one, other) = inputs.split_at_mut(4);
    other.copy_from_slice(one);
    disguise(random, other);
    spoil(random, inputs);
}

/// A base near the greatest whose form exists.
fn at_a_form(random: &mut Random, inputs: &mut [u64]) {
    if random.one_in(2) {
        even_elems(random, inputs);
    }
    if random.one_in(2) {
        let align = 1 << inputs[3].checked_ilog2().unwrap_or(0);
        inputs[0] = random.near(M.wrapping_sub(align));
    }
    spoil(random, inputs);
}

/// A source that converts, with another base and word.
fn at_a_full_conversion(random: &mut Random, inputs: &mut [u64]) {
    if !is_fixed(inputs[7]) && random.one_in(2) {
        even_elems(random, &mut inputs[8..12]);
    }
    at_a_conversion(random, inputs);
    if !is_fixed(inputs[1]) && inputs[5] != 0 {
        disguise(random, &mut inputs[2..6]);
    }
    spoil(random, inputs);
}

fn at_a_full_chain(random: &mut Random, inputs: &mut [u64]) {
    at_a_full_conversion(random, &mut inputs[..12]);
    let counts = random.one_of(&[4, 64, 1 << 20, 1 << (BITS - 2)]);
    inputs[12] = random.below(counts);
    let size = size_at(layout_of(inputs), inputs[12]);
    inputs[14] = a_length(random, size, inputs[10]);
    inputs[15] = a_length(random, inputs[14], inputs[10]);
    inputs[13] = an_address(random, inputs[6], inputs[14].max(inputs[15]));
}
