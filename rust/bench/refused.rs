//! How a typical case is spoilt, so that a function refuses it: each function's refusals by number.

use super::cases::{bytes, short_bytes, Case};
use super::exports::Words;
use super::Word;
use crate::bench::row;

type Spoil = row::Spoil<Case>;

/// The greatest number of the width, so that a sum overflows at either.
const M: Word = Word::MAX;

/// The refusals of each of the layouts, and more.
macro_rules! layouts {
    ($($layout:ident),*; $($more:expr),*) => {
        &[
            $((21, |c| c.$layout.0[1] = 8 + c.code),
            (1, |c| c.$layout.0[0] = 0),
            (1, |c| c.$layout.0[0] *= 3),
            (22, |c| {
                c.$layout.0[1] &= 1;
                c.$layout.0[5] |= 1;
            }),
            (2, |c| {
                c.$layout.0[1] |= 2;
                c.$layout.0[5] = 0;
            }),)*
            $($more),*
        ]
    };
}

pub const ALIGN: &[Spoil] = &[(1, |c| c.align = 0), (1, |c| c.align *= 3)];
pub const ALIGNS: &[Spoil] = &[(1, |c| c.align = 0), (1, |c| c.other_align *= 3), (1, |c| c.align = c.align * 2 + 1)];
pub const ROUNDING: &[Spoil] = &[(1, |c| c.align = 0), (1, |c| c.align *= 3), (3, |c| c.phase += c.align)];
pub const TAIL: &[Spoil] = &[(2, |c| c.tail.0[3] = 0)];
pub const TAILS: &[Spoil] = &[(2, |c| c.tail.0[3] = 0), (2, |c| c.other_tail.0[3] = 0)];
/// The base of the second is the size at 0, since the alignment 2 divides the element size.
pub const FORM: &[Spoil] = &[(2, |c| c.tail.0[3] = 0), (46, |c| c.tail.0 = [M, c.tail.0[1], 2 * c.tail.0[2], 3])];
pub const ROOM: &[Spoil] = &[(2, |c| c.tail.0[3] = 0), (16, |c| c.len = c.tail.0[0] - 1)];
pub const COUNT: &[Spoil] =
    &[(2, |c| c.tail.0[3] = 0), (15, |c| c.count = M), (39, |c| c.tail.0 = [M, c.tail.0[1], c.tail.0[2], 3])];

/// Another layout, with this count at all places but the last, and that one there.
fn put_counts(case: &mut Case, tail: [Word; 4], count: Word, last: Word) {
    let at = case.counts.len() - 1;
    case.tail = Words(tail);
    case.counts[..at].fill(count);
    case.counts[at] = last;
}

/// Of a list of counts: the layout, the empty list, the first count, and the last.
pub const COUNTS: &[Spoil] = &[
    (2, |c| c.tail.0[3] = 0),
    (51, |c| c.counts.clear()),
    (39, |c| c.tail.0 = [M, c.tail.0[1], c.tail.0[2], 3]),
    (52, |c| c.tail.0[1] = M),
    (15, |c| *c.counts.last_mut().unwrap() = M),
    (52, |c| put_counts(c, [8, 10, 1, 5], 2, 3)),
    (53, |c| put_counts(c, [0, 0, 1, 1], 1, M)),
];
pub const ADVANCE: &[Spoil] = &[
    (2, |c| c.tail.0[3] = 0),
    (17, |c| {
        c.tail.0[0] += c.tail.0[3];
        c.size = M;
    }),
];
pub const ASKED: &[Spoil] = &[(1, |c| c.packing = 3 * c.align)];
pub const TYPE: &[Spoil] = &[
    (1, |c| c.align = 0),
    (1, |c| c.align *= 3),
    (4, |c| {
        c.align *= 2;
        c.size = c.size * 2 + 1;
    }),
];
pub const EXTEND: &[Spoil] = layouts![fixed, field;
    (5, |c| c.packing = 3 * c.align),
    (6, |c| c.fixed.0[0] = 1 << 30),
    (6, |c| c.field.0[0] = 1 << 30),
    (6, |c| c.packing = 1 << 30),
    (7, |c| c.fixed = c.whole),
    (8, |c| {
        c.fixed.0[2] = M;
        c.field.0[0] = 2 * c.align;
        c.packing = 0;
    }),
    (9, |c| {
        c.fixed.0[2] = M - 7;
        c.field.0[2] = 8;
    })
];
pub const WHOLE: &[Spoil] = layouts![whole;];
pub const PAD: &[Spoil] = layouts![whole;
    (8, |c| c.whole.0 = [2 * c.align, 1, M, 0, 0, 0]),
    (8, |c| c.whole.0 = [2 * c.align, 3, M, 0, 1, 2 * c.align])
];
pub const ENCODE: &[Spoil] = layouts![whole; (20, |c| c.room = 47)];
pub const SCALAR: &[Spoil] = &[(23, |c| c.code += 9)];
/// Where neither serves.
pub const SERVING: &[Spoil] = layouts![whole;
    (10, |c| c.whole.0[4] = 0),
    (13, |c| {
        c.addr = 0;
        c.len = 0;
    })
];
pub const CAST: &[Spoil] = layouts![whole;
    (10, |c| c.whole.0[4] = 0),
    (11, |c| c.addr = M - c.len + 1),
    (12, |c| {
        c.whole.0[0] *= 2;
        c.addr |= 1;
        c.len &= !1;
    }),
    (13, |c| {
        c.addr = 0;
        c.len = 0;
    })
];
pub const EXACT: &[Spoil] = layouts![whole;
    (14, |c| c.exact = 0),
    (14, |c| c.whole.0[4] = 0),
    (14, |c| c.whole = c.fixed)
];
pub const SOURCE_TAIL: &[Spoil] = &[(2, |c| c.source_tail.0[3] = 0), (2, |c| c.tail.0[3] = 0)];
pub const CONVERT: &[Spoil] = layouts![source, whole;
    (25, |c| c.whole.0[0] = 2 * c.source.0[0]),
    (26, |c| {
        c.source.0 = [c.source.0[0], 1, c.fixed.0[2] + 1, 0, 0, 0];
        c.whole = c.fixed;
        c.whole.0[0] = 1;
    }),
    (27, |c| {
        c.whole = c.fixed;
        c.whole.0[0] = 1;
    }),
    (28, |c| c.source.0 = [c.source.0[0], 1, 0, 0, 0, 0]),
    (29, |c| c.whole.0[4] = 0),
    (30, |c| c.whole.0[4] = c.source.0[4] + 1),
    (31, |c| {
        c.whole.0[4] *= 2;
        c.source.0[4] = 2 * c.whole.0[4] - 1;
    }),
    (32, |c| c.source.0[2] = 0)
];
/// Blocks of the target that begin between those of the source.
pub const APART: &[Spoil] = &[(32, |c| c.whole.0[2] += 1)];
pub const CONVERTED: &[Spoil] = &[
    (19, |c| {
        c.params.0[2] = 2;
        c.code = M;
    }),
    (19, |c| {
        c.params.0[1] = M;
        c.code += 1;
    }),
];

// ---- records and lists ----

/// Puts the whole layout's words into the record.
fn with_record(case: &mut Case, spoil: fn(&mut Case)) {
    spoil(case);
    case.record = bytes(&case.whole.0);
}

pub const DECODE: &[Spoil] = &[
    (20, |c| c.record.truncate(47)),
    (21, |c| with_record(c, WHOLE[0].1)),
    (1, |c| with_record(c, WHOLE[1].1)),
    (1, |c| with_record(c, WHOLE[2].1)),
    (22, |c| with_record(c, WHOLE[3].1)),
    (2, |c| with_record(c, WHOLE[4].1)),
];

/// Puts the field's words into its record.
fn with_member(case: &mut Case, spoil: fn(&mut Case)) {
    spoil(case);
    case.member = bytes(&case.field.0);
}

/// Those of `extend`, and the length behind those of the lent layout.
pub const ADD_RECORD: &[Spoil] = &[
    (21, |c| with_member(c, EXTEND[0].1)),
    (1, |c| with_member(c, EXTEND[1].1)),
    (1, |c| with_member(c, EXTEND[2].1)),
    (22, |c| with_member(c, EXTEND[3].1)),
    (2, |c| with_member(c, EXTEND[4].1)),
    (20, |c| c.member.truncate(47)),
    (21, |c| with_member(c, EXTEND[5].1)),
    (1, |c| with_member(c, EXTEND[6].1)),
    (1, |c| with_member(c, EXTEND[7].1)),
    (22, |c| with_member(c, EXTEND[8].1)),
    (2, |c| with_member(c, EXTEND[9].1)),
    (5, |c| with_member(c, EXTEND[10].1)),
    (6, |c| with_member(c, EXTEND[11].1)),
    (6, |c| with_member(c, EXTEND[12].1)),
    (6, |c| with_member(c, EXTEND[13].1)),
    (7, |c| with_member(c, EXTEND[14].1)),
    (8, |c| with_member(c, EXTEND[15].1)),
    (9, |c| with_member(c, EXTEND[16].1)),
];

/// Puts a record where the last one of the list is, or before that one, and by value too.
fn put(case: &mut Case, from_end: usize, record: [Word; 6]) {
    let at = case.list.len() - 48 * (1 + from_end);
    case.list[at..at + 48].copy_from_slice(&bytes(&record));
    let at = case.members.len() - 1 - from_end;
    case.members[at] = Words(record);
}

/// The size of the members before the last ones.
fn size_before(case: &Case, from_end: usize) -> Word {
    let before = &case.members[..case.members.len() - 1 - from_end];
    let before: Vec<[u64; 6]> = before.iter().map(|member| member.0.map(u64::from)).collect();
    crate::compose(0, case.packing.into(), &before).unwrap()[2].try_into().unwrap()
}

const LAST_21: Spoil = (21, |c| put(c, 0, [1, 8, 0, 0, 0, 0]));
const LAST_1: Spoil = (1, |c| put(c, 0, [3, 1, 3, 0, 0, 0]));
const LAST_22: Spoil = (22, |c| put(c, 0, [1, 1, 1, 0, 1, 0]));
const LAST_2: Spoil = (2, |c| put(c, 0, [1, 3, 1, 0, 1, 0]));
const UNEVEN: Spoil = (20, |c| c.list.truncate(c.list.len() - 1));
const OWN_ALIGN: Spoil = (1, |c| c.own_align = 3 * c.align);
const PACKING: Spoil = (5, |c| c.packing = 3 * c.align);
const LAST_6: Spoil = (6, |c| put(c, 0, [1 << 30, 1, 1 << 30, 0, 0, 0]));
const LAST_7: Spoil = (7, |c| put(c, 1, [1, 3, 0, 0, 1, 1]));
const LAST_8: Spoil = (8, |c| {
    c.packing = 0;
    let size = M - size_before(c, 1);
    put(c, 1, [1, 1, size, 0, 0, 0]);
    put(c, 0, [2, 1, 2, 0, 0, 0]);
});
const LAST_9: Spoil = (9, |c| put(c, 0, [1, 1, M, 0, 0, 0]));
const FINAL_8: Spoil = (8, |c| {
    let size = M - size_before(c, 0);
    put(c, 0, [1, 1, size, 0, 0, 0]);
    c.own_align = 2 * c.align;
});

/// Of additions one by one: the packing is refused by the first, the others by the last.
pub const ADDITIONS: &[Spoil] = &[PACKING, LAST_21, LAST_1, LAST_22, LAST_2, LAST_6, LAST_7, LAST_8, LAST_9];
pub const COMPOSE: &[Spoil] =
    &[UNEVEN, OWN_ALIGN, PACKING, LAST_21, LAST_1, LAST_22, LAST_2, LAST_6, LAST_7, LAST_8, LAST_9];
pub const STRUCT: &[Spoil] =
    &[UNEVEN, OWN_ALIGN, PACKING, LAST_21, LAST_1, LAST_22, LAST_2, LAST_6, LAST_7, LAST_8, LAST_9, FINAL_8];
pub const PLACES: &[Spoil] = &[
    UNEVEN,
    (24, |c| drop(c.places.pop())),
    (24, |c| c.gaps.push(c.places[0].clone())),
    OWN_ALIGN,
    PACKING,
    LAST_21,
    LAST_1,
    LAST_22,
    LAST_2,
    LAST_6,
    LAST_7,
    LAST_8,
    LAST_9,
    FINAL_8,
];
const BOTH: Spoil = (49, |c| (c.own_align, c.packing) = (c.align, c.align));
const LAST_50: Spoil = (50, |c| {
    c.packing = c.align;
    put(c, 0, [4, 5, 4, 0, 0, 0]);
});
const ALIGNED_FINAL_8: Spoil = (8, |c| {
    c.packing = 0;
    (FINAL_8.1)(c);
});
pub const STRICT: &[Spoil] = &[
    UNEVEN,
    OWN_ALIGN,
    BOTH,
    PACKING,
    LAST_21,
    LAST_1,
    LAST_22,
    LAST_2,
    LAST_50,
    LAST_6,
    LAST_7,
    LAST_8,
    LAST_9,
    ALIGNED_FINAL_8,
];
pub const STRUCT_OF_ONE: &[Spoil] = &[UNEVEN, OWN_ALIGN, PACKING, LAST_21, LAST_1, LAST_22, LAST_2, LAST_6, FINAL_8];

// ---- descriptions ----

pub const ARRAY: &[Spoil] = layouts![fixed;
    (36, |c| {
        c.fixed.0[1] |= 2;
        c.fixed.0[5] = 1;
    }),
    (37, |c| {
        c.fixed.0[2] = M;
        c.code = 2;
    })
];
pub const SLICE: &[Spoil] = layouts![fixed;
    (36, |c| {
        c.fixed.0[1] |= 2;
        c.fixed.0[5] = 1;
    })
];

/// An array of 2^64 - 2^33 + 1 elements.
const HUGE: [u8; 10] = [16, 255, 255, 255, 255, 16, 255, 255, 255, 255];

/// Puts other bytes in the place of the slice at the end.
fn end_in(case: &mut Case, bytes: &[u8]) {
    let slice = case.description.len() - 2;
    case.description.truncate(slice);
    case.description.extend(bytes);
}

/// Of a struct that ends in a slice of a scalar: most are met at the end.
pub const READ: &[Spoil] = &[
    (33, |c| c.description.truncate(c.description.len() - 1)),
    (34, |c| end_in(c, &[18, 9])),
    (35, |c| end_in(c, &[18; 17])),
    (36, |c| c.description.insert(0, 18)),
    (37, |c| end_in(c, &[&HUGE[..], &[1]].concat())),
    (38, |c| c.description.push(0)),
    (6, |c| c.description[1] = 31),
    (7, |c| {
        c.description[3] += 1;
        c.description.push(0);
    }),
];

/// Of rewriting: some of reading, and the room.
pub const LENGTHEN: &[Spoil] = &[
    (33, |c| c.description.truncate(c.description.len() - 1)),
    (34, |c| end_in(c, &[18, 9])),
    (38, |c| c.description.push(0)),
    (45, |c| drop(c.shorts_room.pop())),
];

/// Back: also a struct of 300 members.
pub const SHORTEN: &[Spoil] = &[
    (33, |c| c.description.truncate(c.description.len() - 1)),
    (34, |c| end_in(c, &[18, 9])),
    (38, |c| c.description.push(0)),
    (44, |c| c.description = [&[19, 0, 0, 44, 1][..], &[0; 300]].concat()),
    (45, |c| drop(c.shorts_room.pop())),
];

// ---- short records ----

/// Of the record of a trailing layout in its short form: kind, spare bytes and power, then that of a fixed one with a
/// later word, and one without its word.
pub const DECODE_SHORT: &[Spoil] = &[
    (20, |c| c.short.truncate(31)),
    (21, |c| c.short[29] = 8 + c.code as u8),
    (42, |c| c.short[30] = 1),
    (42, |c| c.short[31] = 128),
    (42, |c| c.short[28] = 64),
    (22, |c| c.short[29] &= 1),
    (2, |c| c.short[24..28].fill(0)),
];
#[cfg(not(bits32))]
pub const ENCODE_SHORT: &[Spoil] = layouts![whole;
    (20, |c| c.short_room = 31),
    (40, |c| c.whole.0[5] += 1 << 32)
];
/// A rounding word of 32 bits always fits.
#[cfg(bits32)]
pub const ENCODE_SHORT: &[Spoil] = layouts![whole; (20, |c| c.short_room = 31)];

/// Puts a record where the last one is.
fn put_record(case: &mut Case, record: [u64; 6]) {
    let at = case.records.len() - 48;
    case.records[at..].copy_from_slice(&bytes(&record));
}

/// Puts a short record there, with one byte changed.
fn put_short(case: &mut Case, record: [u64; 6], at: usize, byte: u8) {
    let from = case.shorts.len() - 32;
    case.shorts[from..].copy_from_slice(&short_bytes(record));
    case.shorts[from + at] = byte;
}

/// Of moves: the lengths, then the last record.
pub const CASES: &[Spoil] = &[(48, |c| c.shorts_room.truncate(3_399))];
pub const TO_SHORT: &[Spoil] = &[
    (20, |c| c.records.truncate(c.records.len() - 1)),
    (41, |c| drop(c.shorts_room.pop())),
    (21, |c| put_record(c, [1, 8, 0, 0, 0, 0])),
    (1, |c| put_record(c, [3, 1, 3, 0, 0, 0])),
    (22, |c| put_record(c, [1, 1, 1, 0, 1, 0])),
    (2, |c| put_record(c, [1, 3, 1, 0, 1, 0])),
    (40, |c| put_record(c, [1, 3, 1, 0, 1, 1 << 32])),
];
pub const FROM_SHORT: &[Spoil] = &[
    (20, |c| c.shorts.truncate(c.shorts.len() - 1)),
    (41, |c| drop(c.records_room.pop())),
    (21, |c| put_short(c, [1, 3, 1, 0, 1, 1], 29, 8)),
    (42, |c| put_short(c, [1, 3, 1, 0, 1, 1], 30, 1)),
    (42, |c| put_short(c, [1, 3, 1, 0, 1, 1], 28, 64)),
    (22, |c| put_short(c, [1, 1, 1, 0, 0, 0], 24, 1)),
    (2, |c| put_short(c, [1, 3, 1, 0, 1, 1], 24, 0)),
];
