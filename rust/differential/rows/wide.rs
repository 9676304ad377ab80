//! Cases of records and descriptions that have numbers which 32 bits do not hold. At 64 bits they are like others.

use super::describe::{described, words};
use crate::width::NARROW;

/// Those of a row, where the width adds any.
pub fn pages(row: &str) -> &'static [&'static [u64]] {
    let of_row = PAGES.iter().find(|(name, _)| NARROW && *name == row);
    of_row.map_or(&[], |(_, pages)| pages)
}

const PAST: u64 = 1 << 32;
const FAR: u64 = 1 << 40;

const PAGES: &[(&str, &[&[u64]])] = &[
    ("decode", RECORDS),
    ("compose", LISTS),
    ("for_repr_c_struct", LISTS),
    ("for_repr_c_struct_strict", STRICT_LISTS),
    ("for_repr_c_struct_places", PLACED_LISTS),
    ("working_add_record", MEMBERS),
    ("decode_short", SHORTS),
    ("read", DESCRIPTIONS),
    ("which_serves", LENGTHS),
];

const RECORDS: &[&[u64]] = &[
    // The record's own tests are 64 bits wide, and come first.
    &[48, FAR, 1, 8, 0, 0, 0],
    &[48, 3 * FAR, 1, 8, 0, 0, 0],
    &[48, 4, FAR, 8, 0, 0, 0],
    &[48, 4, 1, 8, FAR, 0, 0],
    &[48, FAR, 1, 8, FAR, 0, 0],
    &[48, FAR, 3, 8, 9, 1, 0],
    &[48, PAST + 4, 1, 8, 0, 0, 0],
    // Each number by itself, as small as it can be, and the greatest that fits.
    &[48, PAST, 1, 8, 0, 0, 0],
    &[48, 4, 1, PAST, 0, 0, 0],
    &[48, 4, 3, PAST, 9, 1, 5],
    &[48, 4, 3, 8, PAST, 1, 5],
    &[48, 4, 3, 8, 9, PAST, 5],
    &[48, 4, 3, 8, 9, 1, PAST],
    &[48, PAST / 2, 3, PAST - 1, PAST - 1, PAST - 1, PAST - 1],
];

const LISTS: &[&[u64]] = &[
    // Behind the length and the own alignment, before the step of the same member: 5, 6, 7, 8 and 9.
    &[0, 0, 49, FAR, 1, 8, 0, 0, 0, 1],
    &[3, 0, 48, FAR, 1, 8, 0, 0, 0],
    &[0, 3, 48, FAR, 1, 8, 0, 0, 0],
    &[0, 3, 48, 4, 1, FAR, 0, 0, 0],
    &[0, 0, 96, 1, 3, 0, 0, 1, 1, 4, 1, FAR, 0, 0, 0],
    &[0, 0, 96, 1, 1, PAST - 1, 0, 0, 0, 4, 1, FAR, 0, 0, 0],
    // Behind the step of the member before it.
    &[0, 3, 96, 4, 1, 8, 0, 0, 0, 4, 1, FAR, 0, 0, 0],
    &[0, 0, 144, 1, 3, 0, 0, 1, 1, 1, 1, 1, 0, 0, 0, 4, 1, FAR, 0, 0, 0],
    // A sum that passes M at this width alone.
    &[0, 0, 96, 1, 1, PAST - 1, 0, 0, 0, 1, 1, 1, 0, 0, 0],
    &[0, 0, 96, 8, 1, 8, 0, 0, 0, 1, 1, PAST - 9, 0, 0, 0],
];

const STRICT_LISTS: &[&[u64]] = &[
    // Behind both modifiers on one type, and before a modifier inside a packed one.
    &[8, 1, 48, FAR, 1, 8, 0, 0, 0],
    &[0, 1, 48, FAR, 5, 8, 0, 0, 0],
    &[0, 1, 48, 4, 4, FAR, 0, 0, 0],
    &[0, 1, 96, 4, 4, 8, 0, 0, 0, FAR, 4, 8, 0, 0, 0],
    &[0, 3, 48, 4, 4, FAR, 0, 0, 0],
];

const PLACED_LISTS: &[&[u64]] = &[
    // Behind the lengths of the slices.
    &[0, 0, 2, 1, 0, 48, FAR, 1, 8, 0, 0, 0],
    &[0, 0, 1, 1, 0, 48, FAR, 1, 8, 0, 0, 0],
    &[0, 0, 2, 2, 0, 96, 4, 1, 8, 0, 0, 0, 4, 1, FAR, 0, 0, 0],
];

const MEMBERS: &[&[u64]] = &[
    &[4, 1, 9, 0, 0, 0, 0, 48, 4, 1, FAR, 0, 0, 0],
    &[4, 1, 9, 0, 0, 0, 3, 48, FAR, 1, 8, 0, 0, 0],
    &[4, 3, 9, 9, 1, 1, 0, 48, FAR, 1, 8, 0, 0, 0],
    &[4, 3, 9, 9, 1, 1, 0, 48, 3 * FAR, 1, 8, 0, 0, 0],
    &[4, 3, 9, 9, 1, 1, 0, 47, FAR, 1, 8, 0, 0, 0],
];

const SHORTS: &[&[u64]] = &[
    // Alignments 2^31 and 2^32, and a size; behind the record's own 22 and 2.
    &[32, 8, 0, 0, (31 << 32) + (1 << 40)],
    &[32, 8, 0, 0, (32 << 32) + (1 << 40)],
    &[32, PAST, 0, 0, (2 << 32) + (1 << 40)],
    &[32, PAST, 1, 0, (2 << 32) + (1 << 40)],
    &[32, PAST, 9, 1, (32 << 32) + (3 << 40)],
    &[32, 8, PAST, PAST, (2 << 32) + (3 << 40) + 5],
];

const DESCRIPTIONS: &[&[u64]] = &[
    // Powers 31 and 32, of the alignment and of the packing; above 63 it stays 34.
    described!(17, 32, 32, 0),
    described!(17, 33, 0, 0),
    described!(17, 33),
    described!(17, 33, 65),
    described!(17, 0, 33, 0),
    described!(17, 0, 33),
    described!(17, 65, 33),
    described!(17, 64, 64, 0),
    described!(19, 33),
    described!(19, 1, 64),
    // When it is read: before members that are refused, and behind those that were.
    described!(17, 33, 0, 2, 18, 0, 0),
    described!(17, 0, 0, 3, 18, 0, 0, 17, 33, 0, 0),
    described!(17, 0, 0, 2, 18, 0, 17, 33, 0, 0),
    // A count fits always: its array has as many bytes as there can be, or too many.
    described!(16, 255, 255, 255, 255, 0),
    described!(16, 255, 255, 255, 255, 1),
    described!(16, 255, 255, 255, 255, 17, 0, 0, 0),
];

const LENGTHS: &[&[u64]] = &[
    // A length that does not fit is 11, whatever the address, and never cut off; but 10 comes before.
    &[1, 3, 0, 0, 1, 1, 0, PAST, 0, 16],
    &[1, 3, 0, 0, 1, 1, 0, PAST + 16, 0, PAST + 16],
    &[4, 3, 8, 9, 1, 5, 1, PAST + 16, 0, 15],
    &[4, 3, 8, 9, 0, 5, 1, PAST + 16, 0, PAST],
    &[4, 0, 8, 0, 0, 0, 2, u64::MAX, 2, FAR],
];
