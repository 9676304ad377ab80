//! Descriptions, and the arrays and slices that they are made of.

use super::{answered, apart, apart_for, layout_of, no_label, nowhere, which_layout, Row};
use crate::answer::Answer;
use crate::describe;
use crate::exports::*;
use crate::kinds::{layout, number};
use crate::random::Random;
use crate::table::{self, first, has_modifier, is_fixed};
use crate::width::{M, TOP};
use oracle::said;

/// Later places in a cell of their own, which holds what those before it do not.
const LATER: &str = "later";

/// The most elements that the Rust is handed one by one.
const MOST_COPIES: u64 = 8;

pub const ROWS: &[Row] = &[
    Row {
        number: 51,
        name: "read",
        inputs: &[&[describe::INPUT]],
        values: 7,
        cells: &[
            apart(0),
            apart(33).at(0, 8),
            apart_for(33, LATER),
            apart(34).at(0, 8),
            apart_for(34, LATER),
            // No power stands first.
            apart(43).at(1, 8).only_at(32),
            apart_for(43, LATER).only_at(32),
            // Sixteen slices, and fifteen with a struct or an array among them.
            apart(35).at(16, 16),
            apart(35).at(19, 20),
            apart_for(35, LATER),
            apart(36).at(0, 8),
            apart_for(36, LATER),
            apart(37).at(0, 8),
            apart_for(37, LATER),
            // No description has three bytes.
            apart(38).at(1, 2),
            apart(38).at(4, 8),
            apart_for(38, LATER),
            apart(6).at(0, 8),
            apart_for(6, LATER),
            apart(7).at(0, 8),
            apart_for(7, LATER),
            apart(8).at(0, 8),
            apart_for(8, LATER),
            apart(9).at(0, 8),
            apart_for(9, LATER),
        ],
        modifier: None,
        label: no_label,
        pages: PAGES,
        aim: nowhere,
        ours: describe::run,
        apart: |i| Some(describe::expected(i)),
        rust: |_| unreachable!("the Rust has no descriptions"),
    },
    Row {
        number: 52,
        name: "for_array",
        inputs: &[&[layout("elem"), number("count")]],
        values: 6,
        cells: &[
            answered("fixed"),
            answered("fixed, modifier"),
            apart(0),
            apart(1),
            apart(2),
            apart(21),
            apart(22),
            apart(36),
            apart(37),
        ],
        modifier: Some(|i| has_modifier(i[1])),
        label: which_layout,
        pages: &[
            &[4, 0, 8, 0, 0, 0, 3],
            &[4, 5, 8, 0, 0, 0, 3],
            // No elements keep alignment and mark; a size that is no multiple of the alignment is taken as it is.
            &[4, 1, 8, 0, 0, 0, 0],
            &[4, 0, 6, 0, 0, 0, 3],
            &[1 << 30, 5, 0, 0, 0, 0, M],
            // The last product, and one past it.
            &[1, 1, 1, 0, 0, 0, M],
            &[1, 1, 3, 0, 0, 0, M / 3],
            &[1, 1, 2, 0, 0, 0, TOP],
            // 36 before 37, and the element's own before both.
            &[1, 3, 0, 0, 1, 1, M],
            &[1, 3, 0, 0, 1, 0, M],
            &[3, 1, 2, 0, 0, 0, TOP],
        ],
        aim: at_the_last_product,
        ours: |i| lukaripe_for_array(Words(layout_of(i)), i[6]).into(),
        apart: array_apart,
        // "The result is the one composition by hand would give": of so many copies.
        rust: |i| said(|| copies(layout_of(i), i[6])).into(),
    },
    Row {
        number: 53,
        name: "for_slice_of",
        inputs: &[&[layout("elem")]],
        values: 6,
        cells: &[
            answered("trailing"),
            answered("trailing, modifier"),
            apart(0),
            apart(1),
            apart(2),
            apart(21),
            apart(22),
            apart(36),
        ],
        modifier: Some(|i| has_modifier(i[1])),
        label: which_layout,
        pages: &[
            &[4, 0, 8, 0, 0, 0],
            &[4, 5, 8, 0, 0, 0],
            &[4, 4, 6, 0, 0, 0],
            &[TOP, 5, 0, 0, 0, 0],
            &[1, 3, 0, 0, 1, 1],
            &[1, 3, 0, 0, 1, 0],
        ],
        aim: at_a_multiple,
        ours: |i| lukaripe_for_slice_of(Words(layout_of(i))).into(),
        apart: |i| {
            let [align, kind, size, ..] = layout_of(i);
            first(&element(layout_of(i))).or_else(|| {
                // The Rust makes a slice of a type, whose size is a multiple of its alignment.
                (size % align != 0).then(|| Answer::of([align, 3 + (kind & 4), 0, 0, size, align]))
            })
        },
        rust: |i| oracle::for_slice(i[2], i[0]).into(),
    },
];

/// The causes of an element: "36 when an array or slice element is trailing".
fn element(layout: [u64; 6]) -> Vec<table::Cause> {
    [&table::layout(layout)[..], &[(36, !is_fixed(layout[1]))]].concat()
}

/// "An array keeps its element's mark and alignment; its size is the product." "37 when an array's size passes M."
fn array_apart(inputs: &[u64]) -> Option<Answer> {
    let ([align, kind, size, ..], count) = (layout_of(inputs), inputs[6]);
    if let Some(refused) = first(&element(layout_of(inputs))) {
        return Some(refused);
    }
    let product = u128::from(size) * u128::from(count);
    if product > M.into() {
        return Some(Answer::refused(37));
    }
    // The Rust can be handed the copies.
    if size % align == 0 && align <= 1 << 29 && (1..=MOST_COPIES).contains(&count) {
        return None;
    }
    Some(Answer::of([align, kind, product as u64, 0, 0, 0]))
}

/// So many members one behind the other, by the Rust.
fn copies(element: [u64; 6], count: u64) -> oracle::Says<6> {
    let mut whole = oracle::new_zst(0)?;
    for _ in 0..count {
        whole = oracle::extend(whole, element, 0)?;
    }
    oracle::pad_to_align(whole)
}

// ---- where to aim ----

/// A few copies, or a product about the greatest.
fn at_the_last_product(random: &mut Random, inputs: &mut [u64]) {
    at_a_multiple(random, inputs);
    inputs[6] = match inputs[2] {
        size if size > 0 && random.one_in(2) => random.near(M / size),
        _ => random.below(MOST_COPIES + 2),
    };
}

/// A fixed element, whose size is mostly a multiple of the alignment.
fn at_a_multiple(random: &mut Random, inputs: &mut [u64]) {
    inputs[1] &= !2;
    inputs[3..6].fill(0);
    if !random.one_in(4) {
        inputs[2] = inputs[2].wrapping_mul(inputs[0]);
    }
}

// ---- descriptions that are easily misread ----

/// A description as a case holds it: its length, and then words.
pub const fn words<const N: usize>(bytes: &[u8]) -> [u64; N] {
    let mut words = [0; N];
    words[0] = bytes.len() as u64;
    let mut at = 0;
    while at < bytes.len() {
        words[1 + at / 8] |= (bytes[at] as u64) << (8 * (at % 8));
        at += 1;
    }
    words
}

/// A description that begins so, and has members of one byte behind that.
pub const fn of_bytes<const N: usize>(head: [u8; 5]) -> [u8; N] {
    let mut bytes = [0; N];
    let mut at = 0;
    while at < head.len() {
        bytes[at] = head[at];
        at += 1;
    }
    bytes
}

macro_rules! described {
    ($($byte:expr),*) => {{
        const BYTES: &[u8] = &[$($byte),*];
        &words::<{ 1 + BYTES.len().div_ceil(8) }>(BYTES)
    }};
}
pub(super) use described;

const PAGES: &[&[u64]] = &[
    described!(),
    described!(8),
    described!(9),
    described!(15),
    described!(20),
    described!(0, 0),
    // An array, a struct and a slice, cut at each length.
    described!(16, 3, 0, 0, 0, 2),
    described!(16, 3, 0, 0, 0),
    described!(16, 3, 0),
    described!(16),
    described!(17, 4, 0, 2, 0, 2),
    described!(17, 4, 0, 2, 0),
    described!(17, 4, 0, 2),
    described!(17, 4, 0),
    described!(17, 4),
    described!(17),
    described!(18, 2),
    described!(18),
    described!(19, 4, 0, 2, 0, 0, 2),
    described!(19, 4, 0, 2, 0, 0),
    described!(19, 4, 0, 2, 0),
    described!(19, 4, 0, 2),
    described!(19, 4, 0),
    described!(19, 4),
    described!(19),
    // A header is judged byte by byte: 34 at its second byte, not 33 at its third. The powers 63, and one above it.
    described!(17, 65),
    described!(17, 64, 65),
    described!(17, 64, 64, 0),
    described!(19, 65),
    described!(19, 64, 65),
    described!(19, 64, 64, 0, 0),
    // 256 members are counted by the second byte; they are read, and so are as many as there can be.
    &words::<{ 1 + 65_540usize.div_ceil(8) }>(&of_bytes::<65_540>([19, 0, 0, 255, 255])),
    &words::<{ 1 + 261usize.div_ceil(8) }>(&of_bytes::<261>([19, 0, 0, 0, 1])),
    &words::<{ 1 + 260usize.div_ceil(8) }>(&of_bytes::<260>([19, 0, 0, 0, 1])),
    &words::<{ 1 + 262usize.div_ceil(8) }>(&of_bytes::<262>([19, 0, 0, 0, 1])),
    // The alignment 2^29 with a member, and 2^30: accepted without one.
    described!(17, 30, 0, 1, 0),
    described!(17, 31, 0, 0),
    described!(17, 31, 0, 1, 0),
    described!(17, 0, 31, 1, 0),
    described!(16, 2, 0, 0, 0, 17, 31, 0, 0),
    // A member behind a run of elements is read whole, and then refused.
    described!(17, 0, 0, 2, 18, 0, 20),
    described!(17, 0, 0, 2, 18, 0, 0),
    described!(19, 0, 0, 2, 0, 18, 0, 0),
    // So is an element: its own refusal comes first.
    described!(16, 2, 0, 0, 0, 18, 0),
    described!(16, 2, 0, 0, 0, 18, 9),
    described!(18, 17, 0, 0, 2, 0, 18, 0),
    described!(18, 18, 18, 0),
    // Both an alignment and a packing, and an aligned struct inside a packed one.
    described!(17, 4, 1, 2, 0, 2),
    described!(17, 0, 1, 2, 0, 17, 4, 0, 1, 2),
    // The alignment of an array of none, its mark, and the alignment modifier through arrays and slices.
    described!(17, 0, 0, 2, 0, 16, 0, 0, 0, 0, 3),
    described!(16, 2, 0, 0, 0, 17, 0, 0, 2, 0, 2),
    described!(18, 16, 1, 0, 0, 0, 17, 1, 0, 1, 0),
    // Sixteen parts, and one more: before any further byte, and before the element is judged.
    described!(
        17, 0, 0, 1, 17, 0, 0, 1, 17, 0, 0, 1, 17, 0, 0, 1, 17, 0, 0, 1, 17, 0, 0, 1, 17, 0, 0, 1, 17, 0, 0, 1, 17, 0,
        0, 1, 17, 0, 0, 1, 17, 0, 0, 1, 17, 0, 0, 1, 17, 0, 0, 1, 17, 0, 0, 1, 17, 0, 0, 1, 17, 0, 0, 1, 0
    ),
    described!(18, 18, 18, 18, 18, 18, 18, 18, 18, 18, 18, 18, 18, 18, 18, 18, 16),
    described!(18, 18, 18, 18, 18, 18, 18, 18, 18, 18, 18, 18, 18, 18, 18, 18, 19),
    described!(18, 18, 18, 18, 18, 18, 18, 18, 18, 18, 18, 18, 18, 18, 18, 18, 20),
    described!(18, 18, 18, 18, 18, 18, 18, 18, 18, 18, 18, 18, 18, 18, 18, 18, 0),
    // A struct that is closed is open no more.
    described!(17, 0, 0, 2, 17, 0, 0, 0, 17, 0, 0, 0),
    // (2^32 - 1)^2 bytes, and twice that; with two arrays more the size is the greatest.
    described!(16, 255, 255, 255, 255, 16, 255, 255, 255, 255, 0),
    described!(16, 255, 255, 255, 255, 16, 255, 255, 255, 255, 1),
    described!(
        17, 0, 0, 3, 16, 255, 255, 255, 255, 16, 255, 255, 255, 255, 0, 16, 255, 255, 255, 255, 0, 16, 255, 255, 255,
        255, 0
    ),
    // That and one byte more; a member of size 0 that needs rounding; closing padding.
    described!(
        17, 0, 0, 4, 16, 255, 255, 255, 255, 16, 255, 255, 255, 255, 0, 16, 255, 255, 255, 255, 0, 16, 255, 255, 255,
        255, 0, 0
    ),
    described!(
        17, 0, 0, 4, 16, 255, 255, 255, 255, 16, 255, 255, 255, 255, 0, 16, 255, 255, 255, 255, 0, 16, 255, 255, 255,
        255, 0, 16, 0, 0, 0, 0, 1
    ),
    described!(
        17, 2, 0, 3, 16, 255, 255, 255, 255, 16, 255, 255, 255, 255, 0, 16, 255, 255, 255, 255, 0, 16, 255, 255, 255,
        255, 0
    ),
    described!(0, 255),
    described!(17, 0, 0, 0, 17),
];
