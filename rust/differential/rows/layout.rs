//! Whole layouts.

use super::{answered, apart, layout_of, no_label, no_modifier, nowhere, refused, which_layout, yes_or_no};
use super::{Cell, Row, ANSWER};
use crate::exports::*;
use crate::kinds::{align, layout, modifier, number, preceding};
use crate::random::Random;
use crate::table::{self, first, has_modifier, is_fixed, sized, two_layouts};
use crate::width::M;

pub const ROWS: &[Row] = &[
    Row {
        number: 15,
        name: "new_zst",
        inputs: &[&[modifier("repr_align")]],
        values: 6,
        cells: &[ANSWER, refused(1)],
        modifier: Some(|i| i[0] != 0),
        label: no_label,
        pages: &[&[0]],
        aim: nowhere,
        ours: |i| lukaripe_new_zst(i[0]).into(),
        apart: |_| None,
        rust: |i| oracle::new_zst(i[0]).into(),
    },
    Row {
        number: 16,
        name: "for_type",
        inputs: &[&[number("size"), align("align")]],
        values: 6,
        cells: &[ANSWER, apart(1), apart(4)],
        modifier: Some(no_modifier),
        label: no_label,
        pages: &[],
        aim: at_a_type,
        ours: |i| lukaripe_for_type(i[0], i[1]).into(),
        apart: |i| first(&sized(i[0], i[1])),
        rust: |i| oracle::for_type(i[0], i[1]).into(),
    },
    Row {
        number: 17,
        name: "for_unpadded_type",
        inputs: &[&[number("size"), align("align")]],
        values: 6,
        cells: &[ANSWER, apart(1), apart(4)],
        modifier: Some(no_modifier),
        label: no_label,
        pages: &[],
        aim: at_a_type,
        ours: |i| lukaripe_for_unpadded_type(i[0], i[1]).into(),
        apart: |i| first(&sized(i[0], i[1])),
        rust: |i| oracle::for_unpadded_type(i[0], i[1]).into(),
    },
    Row {
        number: 18,
        name: "for_slice",
        inputs: &[&[number("size"), align("align")]],
        values: 6,
        cells: &[ANSWER, apart(1), apart(4)],
        modifier: Some(no_modifier),
        label: no_label,
        pages: &[],
        aim: at_a_type,
        ours: |i| lukaripe_for_slice(i[0], i[1]).into(),
        apart: |i| first(&sized(i[0], i[1])),
        rust: |i| oracle::for_slice(i[0], i[1]).into(),
    },
    Row {
        number: 19,
        name: "extend",
        inputs: &[&[preceding("layout"), layout("field"), modifier("repr_packed")]],
        values: 6,
        cells: STEP,
        modifier: Some(|i| has_modifier(i[1]) || has_modifier(i[7])),
        label: which_layout,
        pages: STEPS,
        aim: at_the_last_place,
        ours: |i| lukaripe_extend(Words(layout_of(i)), Words(layout_of(&i[6..])), i[12]).into(),
        apart: |i| two_layouts(layout_of(i), layout_of(&i[6..])),
        rust: |i| oracle::extend(layout_of(i), layout_of(&i[6..]), i[12]).into(),
    },
    Row {
        number: 20,
        name: "pad_to_align",
        inputs: &[&[layout("layout")]],
        values: 6,
        cells: &[
            answered("fixed"),
            answered("trailing"),
            answered("fixed, modifier"),
            answered("trailing, modifier"),
            refused(8),
            apart(1),
            apart(2),
            apart(21),
            apart(22),
        ],
        modifier: Some(|i| has_modifier(i[1])),
        label: which_layout,
        pages: &[
            &[4, 3, 9, 9, 1, 1],
            &[4, 0, 9, 0, 0, 0],
            // Each kind with the alignment modifier.
            &[4, 4, 9, 0, 0, 0],
            &[4, 5, 8, 0, 0, 0],
            &[4, 6, 9, 9, 1, 1],
            &[4, 7, 8, 8, 4, 4],
            // 8 is about the base, not about the size at 0.
            &[8, 2, M - 1, 0, 1, 1],
        ],
        aim: at_the_last_base,
        ours: |i| lukaripe_pad_to_align(Words(layout_of(i))).into(),
        apart: |i| first(&table::layout(layout_of(i))),
        rust: |i| oracle::pad_to_align(layout_of(i)).into(),
    },
    Row {
        number: 21,
        name: "requires_static_padding",
        inputs: &[&[layout("layout")]],
        values: 1,
        cells: &[answered("no"), answered("yes"), apart(1), apart(2), apart(21), apart(22)],
        modifier: None,
        label: yes_or_no,
        pages: &[],
        aim: nowhere,
        ours: |i| lukaripe_requires_static_padding(Words(layout_of(i))).into(),
        apart: |i| first(&table::layout(layout_of(i))),
        rust: |i| oracle::requires_static_padding(layout_of(i)).into(),
    },
    Row {
        number: 22,
        name: "requires_dynamic_padding",
        inputs: &[&[layout("layout")]],
        values: 1,
        cells: &[answered("no"), answered("yes"), apart(1), apart(2), apart(21), apart(22)],
        modifier: None,
        label: yes_or_no,
        pages: &[&[4, 3, 8, 9, 1, 5], &[8, 2, M - 7, 0, 8, 9]],
        aim: at_the_last_base,
        ours: |i| lukaripe_requires_dynamic_padding(Words(layout_of(i))).into(),
        apart: |i| first(&table::layout(layout_of(i))),
        rust: |i| oracle::requires_dynamic_padding(layout_of(i)).into(),
    },
];

/// What can come of a member that is added.
pub const STEP: &[Cell] = &[
    answered("fixed"),
    answered("trailing"),
    answered("fixed, modifier"),
    answered("trailing, modifier"),
    refused(5),
    refused(6),
    refused(7),
    refused(8),
    refused(9),
    apart(1),
    apart(2),
    apart(21),
    apart(22),
];

pub const STEPS: &[&[u64]] = &[
    // The steps of the listing's example, and its refusal.
    &[1, 1, 0, 0, 0, 0, 4, 1, 8, 0, 0, 0, 0],
    &[4, 1, 8, 0, 0, 0, 1, 1, 1, 0, 0, 0, 0],
    &[4, 1, 9, 0, 0, 0, 1, 3, 0, 0, 1, 1, 0],
    &[1, 3, 0, 0, 1, 1, 1, 1, 1, 0, 0, 0, 0],
    // 6 tests the member's own alignment, before the packing lowers it; packing 3 * 2^29 is 5.
    &[1, 1, 0, 0, 0, 0, 1 << 30, 1, 0, 0, 0, 0, 1],
    &[1, 1, 0, 0, 0, 0, 1, 1, 0, 0, 0, 0, 1 << 30],
    &[1, 1, 0, 0, 0, 0, 1, 1, 0, 0, 0, 0, 3 << 29],
    // The alignment modifier of either, in each kind; it is no refusal here, under a packing either.
    &[4, 5, 8, 0, 0, 0, 1, 1, 1, 0, 0, 0, 0],
    &[4, 1, 9, 0, 0, 0, 4, 4, 8, 0, 0, 0, 1],
    &[4, 1, 9, 0, 0, 0, 1, 7, 0, 0, 1, 1, 0],
    &[4, 4, 9, 0, 0, 0, 1, 3, 0, 0, 1, 1, 0],
    &[4, 5, 8, 0, 0, 0, 4, 6, 8, 9, 1, 5, 2],
];

// ---- where to aim ----

/// A multiple of the alignment.
fn at_a_type(_: &mut Random, inputs: &mut [u64]) {
    inputs[0] = inputs[0].wrapping_mul(inputs[1]);
}

/// A preceding size, and a member's numbers, such that the last place or the last size is met.
pub fn at_the_last_place(random: &mut Random, inputs: &mut [u64]) {
    let room = random.below(64);
    match random.below(3) {
        // No room to round up in.
        0 => inputs[2] = M - room,
        // Room for the member's numbers, or less.
        1 => inputs[2] = random.near(M.wrapping_sub(inputs[8].max(inputs[9]))),
        _ => {
            let at = 8 + random.below(2) as usize;
            if at == 8 || !is_fixed(inputs[7]) {
                inputs[at] = random.near(M.wrapping_sub(inputs[2])).wrapping_sub(room) & M;
            }
        }
    }
}

/// A size_base near M.
fn at_the_last_base(random: &mut Random, inputs: &mut [u64]) {
    let room = random.below(4).wrapping_mul(inputs[0]);
    inputs[2] = random.near(M.wrapping_sub(room));
}
