//! Short records, and moves of lists from one form to the other. The Rust has neither: all is held to document 02's
//! text, as plain_short has it.

use super::{apart, layout_of, no_label, nowhere, Row};
use crate::exports::lukaripe_decode_short;
use crate::kinds::{layout, records_to_move, short_length, short_record, shorts_to_move};
use crate::lent::{bytes, reads};
use crate::moves::{self, FROM, TO};
use crate::table::is_fixed;

pub const ROWS: &[Row] = &[
    Row {
        number: 39,
        name: "decode_short",
        inputs: &[&[short_record("record")]],
        values: 6,
        cells: &[apart(0), apart(2), apart(20), apart(21), apart(22), apart(42), apart(43).only_at(32)],
        modifier: None,
        label: no_label,
        pages: &[
            &[32, 8, 9, 1, LAST_3 + 5],
            &[0],
            // Each kind, and the next.
            &[32, 9, 0, 0, LAST_0],
            &[32, 8, 0, 0, LAST_0 + KIND],
            &[32, 8, 9, 1, LAST_0 + 2 * KIND + 5],
            &[32, 9, 0, 0, LAST_0 + 4 * KIND],
            &[32, 8, 0, 0, LAST_0 + 5 * KIND],
            &[32, 8, 9, 1, LAST_0 + 6 * KIND + 5],
            &[32, 8, 9, 1, LAST_0 + 7 * KIND + 5],
            &[32, 8, 0, 0, LAST_0 + 8 * KIND],
            // The greatest power and word, and the next power.
            &[32, 8, 9, 1, 63 * POWER + 3 * KIND + 0xffff_ffff],
            &[32, 8, 9, 1, 64 * POWER + 3 * KIND + 5],
            &[32, 8, 9, 1, 255 * POWER + 3 * KIND + 5],
            // Whatever else is wrong: the length, then the kind, then spare bytes and power, then the later words.
            &[31, 8, 9, 1, 64 * POWER + 8 * KIND],
            &[33, 8, 9, 1, SPARE + 8 * KIND, 0],
            &[48, 4, 3, 8, 9, 1, 5],
            &[32, 8, 9, 1, SPARE + 64 * POWER + 8 * KIND],
            &[32, 8, 9, 1, SPARE + KIND],
            &[32, 8, 9, 1, 0x8000 * SPARE + 3 * KIND],
            &[32, 8, 9, 1, 64 * POWER + 3 * KIND],
            &[32, 8, 1, 0, LAST_0 + KIND],
            &[32, 8, 0, 1, LAST_0 + KIND],
            &[32, 8, 0, 0, LAST_0 + KIND + 1],
            &[32, 8, 0, 0, LAST_3],
        ],
        aim: nowhere,
        ours: |i| reads(&bytes(i), |record, len| unsafe { lukaripe_decode_short(record, len) }.into()),
        apart: |i| Some(moves::layout_of_short(&bytes(i))),
        rust: |_| unreachable!("the Rust has no records"),
    },
    Row {
        number: 40,
        name: "encode_short",
        inputs: &[&[layout("layout"), short_length("len")]],
        // The first words of the output.
        values: 5,
        cells: &[apart(0), apart(1), apart(2), apart(20), apart(21), apart(22), apart(40).only_at(64)],
        modifier: None,
        label: no_label,
        pages: &[
            &[4, 3, 8, 9, 1, 5, 32],
            &[4, 0, 9, 0, 0, 0, 32],
            &[4, 1, 8, 0, 0, 0, 32],
            &[4, 2, 8, 9, 1, 5, 32],
            &[4, 4, 9, 0, 0, 0, 32],
            &[4, 5, 8, 0, 0, 0, 32],
            &[4, 6, 8, 9, 1, 5, 32],
            &[4, 7, 8, 9, 1, 5, 32],
            &[1 << 63, 7, u64::MAX, u64::MAX, u64::MAX, 0xffff_ffff, 32],
            &[1, 2, 0, 0, 0, 0x1_0000_0000, 32],
            // The length comes first, and the word last.
            &[3, 8, 8, 9, 1, 1 << 32, 31],
            &[3, 8, 8, 9, 1, 1 << 32, 48],
            &[3, 8, 8, 9, 1, 1 << 32, 32],
            &[3, 3, 8, 9, 1, 1 << 32, 32],
            &[4, 1, 8, 9, 1, 1 << 32, 32],
            &[4, 1, 8, 0, 0, 1 << 32, 32],
        ],
        // The word goes to where it is too great.
        aim: |random, inputs| {
            if !is_fixed(inputs[1]) {
                inputs[5] = random.near(1 << 32);
            }
        },
        ours: |i| moves::encode(layout_of(i), i[6]),
        apart: |i| Some(moves::short_of_layout(layout_of(i), i[6])),
        rust: |_| unreachable!("the Rust has no records"),
    },
    Row {
        number: 41,
        name: "records_to_short",
        inputs: &[&[records_to_move("out_len, from, records")]],
        // The place, the bytes written, and ten words of the output.
        values: 12,
        cells: &[
            apart(0),
            apart(20).at(0, 0),
            apart(41).at(0, 0),
            apart(21).at(0, 6),
            apart(1).at(0, 6),
            apart(22).at(0, 6),
            apart(2).at(0, 6),
            apart(40).at(0, 6),
        ],
        modifier: None,
        label: no_label,
        pages: &[
            &[0, 0, 0],
            &[8, 0, 0],
            &[32, 0, 48, 4, 3, 8, 9, 1, 5],
            &[64, 0, 96, 4, 3, 8, 9, 1, 5, 1 << 63, 4, u64::MAX, 0, 0, 0],
            // Output that is longer, and one byte short.
            &[65, 4, 96, 4, 3, 8, 9, 1, 5, 1 << 63, 4, u64::MAX, 0, 0, 0],
            &[512, 0, 96, 4, 3, 8, 9, 1, 5, 1 << 63, 4, u64::MAX, 0, 0, 0],
            &[63, 0, 96, 4, 3, 8, 9, 1, 5, 1 << 63, 4, u64::MAX, 0, 0, 0],
            &[32, 0, 96, 4, 3, 8, 9, 1, 5, 1 << 63, 4, u64::MAX, 0, 0, 0],
            &[0, 0, 48, 4, 3, 8, 9, 1, 5],
            // The length of the list, then that of the output, then the records, each by its own tests and then 40.
            &[0, 0, 49, 3, 8, 8, 9, 1, 1 << 32, 1],
            &[31, 0, 47, 3, 8, 8, 9, 1, 1],
            &[31, 0, 48, 3, 8, 8, 9, 1, 1 << 32],
            &[32, 0, 48, 3, 8, 8, 9, 1, 1 << 32],
            &[32, 0, 48, 3, 3, 8, 9, 1, 1 << 32],
            &[32, 0, 48, 4, 1, 8, 9, 1, 1 << 32],
            &[32, 0, 48, 4, 1, 8, 0, 0, 1 << 32],
            &[32, 0, 48, 4, 3, 8, 9, 1, 0],
            &[32, 0, 48, 4, 3, 8, 9, 1, 1 << 32],
            &[32, 0, 48, 4, 3, 8, 9, 1, (1 << 32) - 1],
            // The first that is refused is meant, and nothing of those before it is written.
            &[96, 0, 144, 4, 1, 8, 0, 0, 0, 4, 3, 8, 9, 1, 1 << 32, 3, 8, 8, 0, 0, 0],
            &[64, 0, 96, 4, 1, 8, 0, 0, 0, 3, 1, 8, 0, 0, 0],
        ],
        aim: nowhere,
        ours: |i| moves::run(&TO, i),
        apart: |i| Some(moves::expected(&TO, i)),
        rust: |_| unreachable!("the Rust has no records"),
    },
    Row {
        number: 42,
        name: "records_from_short",
        inputs: &[&[shorts_to_move("out_len, from, records")]],
        values: 12,
        cells: &[
            apart(0),
            apart(20).at(0, 0),
            apart(41).at(0, 0),
            apart(21).at(0, 6),
            apart(42).at(0, 6),
            apart(22).at(0, 6),
            apart(2).at(0, 6),
        ],
        modifier: None,
        label: no_label,
        pages: &[
            &[0, 0, 0],
            &[8, 0, 0],
            &[48, 0, 32, 8, 9, 1, LAST_3 + 5],
            &[96, 0, 64, 8, 9, 1, LAST_3 + 5, u64::MAX, 0, 0, 63 * POWER + 4 * KIND],
            &[97, 6, 64, 8, 9, 1, LAST_3 + 5, u64::MAX, 0, 0, 63 * POWER + 4 * KIND],
            &[512, 0, 64, 8, 9, 1, LAST_3 + 5, u64::MAX, 0, 0, 63 * POWER + 4 * KIND],
            &[95, 0, 64, 8, 9, 1, LAST_3 + 5, u64::MAX, 0, 0, 63 * POWER + 4 * KIND],
            &[48, 0, 64, 8, 9, 1, LAST_3 + 5, u64::MAX, 0, 0, 63 * POWER + 4 * KIND],
            &[0, 0, 32, 8, 9, 1, LAST_3 + 5],
            &[0, 0, 33, 8, 9, 1, SPARE + 8 * KIND, 1],
            &[47, 0, 31, 8, 9, 1, 8 * KIND],
            &[47, 0, 32, 8, 9, 1, SPARE + 8 * KIND],
            &[48, 0, 32, 8, 9, 1, SPARE + 64 * POWER + 8 * KIND],
            &[48, 0, 32, 8, 9, 1, SPARE + 64 * POWER + KIND],
            &[48, 0, 32, 8, 9, 1, 0x8000 * SPARE + 3 * KIND],
            &[48, 0, 32, 8, 9, 1, 64 * POWER + 3 * KIND],
            &[48, 0, 32, 8, 9, 1, 63 * POWER + 3 * KIND],
            &[48, 0, 32, 8, 0, 0, LAST_0 + KIND + 1],
            // A whole list of old records is one of short ones by its length alone.
            &[144, 0, 96, 4, 3, 8, 9, 1, 5, 4, 3, 8, 9, 1, 5],
            &[144, 0, 96, 8, 0, 0, LAST_0, 8, 9, 1, LAST_3, 8, 0, 0, 8 * KIND],
            &[96, 0, 64, 8, 0, 0, LAST_0, 8, 0, 0, SPARE + LAST_0],
        ],
        aim: nowhere,
        ours: |i| moves::run(&FROM, i),
        apart: |i| Some(moves::expected(&FROM, i)),
        rust: |_| unreachable!("the Rust has no records"),
    },
];

// The fields of the last word of a short record: the rounding word, and these.
const POWER: u64 = 1 << 32;
const KIND: u64 = 1 << 40;
const SPARE: u64 = 1 << 48;
/// Alignment 4 of kind 0, and of kind 3.
const LAST_0: u64 = 2 * POWER;
const LAST_3: u64 = LAST_0 + 3 * KIND;
