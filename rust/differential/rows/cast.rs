//! Casts.

use super::{answered, apart, layout_of, refused, refused_for, Row, ANSWER};
use crate::answer::Answer;
use crate::exports::*;
use crate::kinds::{flag, layout, number};
use crate::layouts::size_at;
use crate::random::Random;
use crate::table::{self, first, is_fixed};
use crate::width::{BITS, M};

pub const ROWS: &[Row] = &[
    Row {
        number: 28,
        name: "validate_cast_and_convert_metadata",
        inputs: &[&[layout("layout"), number("addr"), number("bytes_len"), flag("suffix")]],
        values: 2,
        cells: &[
            answered("prefix, fixed"),
            answered("prefix, trailing"),
            answered("suffix, fixed"),
            answered("suffix, trailing"),
            refused(10),
            refused(11),
            refused(12),
            refused(13),
            apart(1),
            apart(2),
            apart(21),
            apart(22),
        ],
        modifier: None,
        label: granted,
        pages: &[
            &[4, 3, 8, 9, 1, 5, 0, 11, 0],
            &[4, 3, 8, 9, 1, 5, 0, 12, 0],
            &[4, 3, 8, 9, 1, 5, 0, 15, 0],
            &[4, 3, 8, 9, 1, 5, 0, 16, 0],
            &[4, 3, 8, 9, 1, 5, 1, 15, 1],
            &[4, 3, 8, 9, 1, 5, 2, 3, 0],
            &[4, 3, 8, 9, 9, 5, 0, 24, 0],
            &[4, 3, 8, 9, 0, 5, 0, 24, 0],
            // A suffix of a layout that was never padded may start unaligned.
            &[4, 0, 5, 0, 0, 0, 3, 5, 1],
            // 11 for a prefix too.
            &[4, 0, 5, 0, 0, 0, 4, M - 3, 0],
        ],
        aim: at_a_cast,
        ours: |i| lukaripe_validate_cast_and_convert_metadata(Words(layout_of(i)), i[6], i[7], i[8] != 0).into(),
        apart: |i| first(&table::layout(layout_of(i))),
        rust: |i| oracle::validate_cast_and_convert_metadata(layout_of(i), i[6], i[7], i[8] != 0).into(),
    },
    Row {
        number: 29,
        name: "metadata_for_exact_size",
        inputs: &[&[layout("layout"), number("size")]],
        values: 1,
        cells: &[
            ANSWER,
            refused_for(14, "fixed"),
            refused_for(14, "e 0"),
            refused_for(14, "no such count"),
            apart(1),
            apart(2),
            apart(21),
            apart(22),
        ],
        modifier: None,
        label: why_no_exact_count,
        pages: &[
            &[4, 3, 8, 9, 1, 5, 11],
            &[4, 3, 8, 9, 1, 5, 12],
            &[4, 3, 8, 9, 1, 5, 16],
            &[4, 3, 8, 9, 0, 5, 12],
            &[4, 2, 8, 0, 8, 4, 16],
            &[4, 2, 8, 0, 8, 4, 15],
        ],
        aim: |random, inputs| inputs[6] = a_size(random, inputs),
        ours: |i| lukaripe_metadata_for_exact_size(Words(layout_of(i)), i[6]).into(),
        apart: |i| first(&table::layout(layout_of(i))),
        rust: |i| oracle::metadata_for_exact_size(layout_of(i), i[6]).into(),
    },
];

fn granted(inputs: &[u64], answer: &Answer) -> &'static str {
    match (answer.refusal, inputs[8], is_fixed(inputs[1])) {
        (0, 0, true) => "prefix, fixed",
        (0, 0, _) => "prefix, trailing",
        (0, _, true) => "suffix, fixed",
        (0, _, _) => "suffix, trailing",
        _ => "",
    }
}

fn why_no_exact_count(inputs: &[u64], answer: &Answer) -> &'static str {
    match (answer.refusal, is_fixed(inputs[1]), inputs[4]) {
        (0, _, _) => "",
        (_, true, _) => "fixed",
        (_, _, 0) => "e 0",
        _ => "no such count",
    }
}

// ---- where to aim ----

/// The size of the first layout at some count, or a number next to it.
fn a_size(random: &mut Random, inputs: &[u64]) -> u64 {
    let counts = random.one_of(&[4, 64, 1 << 20, 1 << (BITS - 2)]);
    let count = random.below(counts);
    random.near(size_at(layout_of(inputs), count))
}

/// A length near a size, and mostly an address that is aligned on the side that is tested.
fn at_a_cast(random: &mut Random, inputs: &mut [u64]) {
    inputs[7] = a_size(random, inputs);
    let end = inputs[0].wrapping_mul(random.below(1 << 8));
    let aligned = if inputs[8] == 0 { end } else { end.wrapping_sub(inputs[7]) };
    inputs[6] = match random.below(4) {
        0 => random.near(aligned),
        // Up to M, or just past it.
        1 => random.near(M.wrapping_sub(inputs[7])),
        _ => aligned,
    };
}
