//! Trailing layouts.

use super::{answered, apart, no_label, nowhere, refused, trailing_of, yes_or_no, Row, ANSWER, TRAILING};
use crate::answer::Answer;
use crate::exports::*;
use crate::kinds::number;
use crate::layouts::{parts, rounded_phase};
use crate::random::Random;
use crate::table::first;
use crate::width::M;

pub const ROWS: &[Row] = &[
    Row {
        number: 9,
        name: "size_offset",
        inputs: &[TRAILING],
        values: 1,
        cells: &[ANSWER, apart(2)],
        modifier: None,
        label: no_label,
        pages: &[],
        aim: nowhere,
        ours: |i| lukaripe_size_offset(Words(trailing_of(i))).into(),
        apart: |i| first(&[(2, i[3] == 0)]),
        rust: |i| oracle::size_offset(trailing_of(i)).into(),
    },
    Row {
        number: 10,
        name: "max_trailing_bytes",
        inputs: &[TRAILING, &[number("available_bytes")]],
        values: 1,
        cells: &[ANSWER, refused(16), apart(2)],
        modifier: None,
        label: no_label,
        pages: &[],
        aim: at_a_size,
        ours: |i| lukaripe_max_trailing_bytes(Words(trailing_of(i)), i[4]).into(),
        apart: |i| first(&[(2, i[3] == 0)]),
        rust: |i| oracle::max_trailing_bytes(trailing_of(i), i[4]).into(),
    },
    Row {
        number: 11,
        name: "padding_for_elems",
        inputs: &[TRAILING, &[number("elems")]],
        values: 1,
        cells: &[ANSWER, apart(2)],
        modifier: None,
        label: no_label,
        pages: &[&[8, 9, 1, 5, 0], &[8, 9, 1, 5, 3], &[8, 9, 1, 5, 4]],
        aim: at_the_last_count,
        ours: |i| lukaripe_padding_for_elems(Words(trailing_of(i)), i[4]).into(),
        apart: |i| first(&[(2, i[3] == 0)]),
        rust: |i| oracle::padding_for_elems(trailing_of(i), i[4]).into(),
    },
    Row {
        number: 12,
        name: "size_for_elems",
        inputs: &[TRAILING, &[number("elems")]],
        values: 1,
        cells: &[ANSWER, refused(15), refused(39), apart(2)],
        modifier: None,
        label: no_label,
        pages: &[
            &[8, 9, 1, 5, 0],
            &[8, 9, 1, 5, 3],
            &[8, 9, 1, 5, 4],
            &[M - 7, 0, 1, 8, 0],
            &[M - 7, 0, 1, 8, 1],
            &[M - 7, 0, 1, 9, 0],
        ],
        aim: at_the_last_count,
        ours: |i| lukaripe_size_for_elems(Words(trailing_of(i)), i[4]).into(),
        apart: |i| first(&[(2, i[3] == 0)]),
        rust: |i| size_or_greatest(trailing_of(i), i[4]),
    },
    Row {
        number: 13,
        name: "advance",
        inputs: &[TRAILING, &[number("bytes"), number("new_elem_size")]],
        values: 4,
        cells: &[ANSWER, refused(17), apart(2)],
        modifier: None,
        label: no_label,
        pages: &[],
        aim: at_the_last_advance,
        ours: |i| lukaripe_advance(Words(trailing_of(i)), i[4], i[5]).into(),
        apart: |i| first(&[(2, i[3] == 0)]),
        rust: |i| oracle::advance(trailing_of(i), i[4], i[5]).into(),
    },
    Row {
        number: 14,
        name: "has_same_size_sequence",
        inputs: &[TRAILING, TRAILING],
        values: 1,
        cells: &[answered("no"), answered("yes"), apart(2)],
        modifier: None,
        label: yes_or_no,
        pages: &[&[0, 0, 4, 9, 0, 0, 4, 10]],
        aim: at_equal_sizes,
        ours: |i| lukaripe_has_same_size_sequence(Words(trailing_of(i)), Words(trailing_of(&i[4..]))).into(),
        apart: |i| first(&[(2, i[3] == 0), (2, i[7] == 0)]),
        rust: |i| oracle::has_same_size_sequence(trailing_of(i), trailing_of(&i[4..])).into(),
    },
];

// ---- where to aim ----

/// Room for one of the first sizes.
fn at_a_size(random: &mut Random, inputs: &mut [u64]) {
    let (align, _) = parts(inputs[3]);
    let size = inputs[0].wrapping_add(align.wrapping_mul(random.below(4)));
    inputs[4] = random.near(size);
}

/// The greatest count that has a size.
fn at_the_last_count(random: &mut Random, inputs: &mut [u64]) {
    let (align, phase) = parts(inputs[3]);
    let room = (M - inputs[0]) & !(align - 1);
    let count = room.saturating_sub(phase) / inputs[2].max(1);
    inputs[4] = random.near(count);
}

/// The greatest number of bytes to advance by.
fn at_the_last_advance(random: &mut Random, inputs: &mut [u64]) {
    let (align, phase) = parts(inputs[3]);
    let bytes = M - (inputs[0] & !(align - 1)) - phase;
    inputs[4] = random.near(bytes);
}

/// The same element size and the same size at 0, with the same word, another phase or another word. The element size is
/// a multiple of the larger alignment, of half of it, or as it was.
fn at_equal_sizes(random: &mut Random, inputs: &mut [u64]) {
    let (align, _) = parts(inputs[3]);
    inputs[7] = match random.below(4) {
        0 => inputs[3],
        1 => align | (inputs[7] & (align - 1)),
        _ => inputs[7],
    };
    let larger = align.max(parts(inputs[7]).0);
    let unit = random.one_of(&[larger, larger.div_ceil(2), 1]);
    inputs[2] = inputs[2].wrapping_mul(unit);
    inputs[6] = inputs[2];
    let size = inputs[0].wrapping_add(rounded_phase(inputs[3]));
    inputs[4] = size.wrapping_sub(rounded_phase(inputs[7]));
}

/// The Rust's size. Where it has none, 39 if it has none at 0 either, else 15 with the greatest count at which it has
/// one: of two counts, one with a size and one without, the way between them is halved until they are neighbours.
fn size_or_greatest(layout: oracle::Trailing, elems: u64) -> Answer {
    let has = |count| oracle::size_for_elems(layout, count).is_ok();
    match oracle::size_for_elems(layout, elems) {
        Ok(size) => Answer::of(size),
        Err(_) if !has(0) => Answer::refused(39),
        Err(number) => {
            let (mut with, mut without) = (0, elems);
            while without - with > 1 {
                let between = with + (without - with) / 2;
                if has(between) {
                    with = between;
                } else {
                    without = between;
                }
            }
            Answer::refused_with(number, with)
        }
    }
}
