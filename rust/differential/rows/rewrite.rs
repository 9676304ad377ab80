//! Descriptions rewritten. The Rust has none: all is held to document 02's text, as plain_rewrite has it.

use super::describe::{of_bytes, words};
use super::{apart, apart_for, no_label, nowhere, Row};
use crate::rewrites::{self, LENGTHEN, LENGTHENED, SHORTEN, SHORTENED};

/// Places behind those before it.
const LATER: &str = "later";

/// A case: the length of the output, the word from which on it is looked at, and a description.
const fn at<const N: usize, const M: usize>(out_len: u64, from: u64, description: [u64; N]) -> [u64; M] {
    let mut case = [0; M];
    case[0] = out_len;
    case[1] = from;
    let mut at = 0;
    while at < N {
        case[2 + at] = description[at];
        at += 1;
    }
    case
}

macro_rules! rewriting {
    ($out_len:literal, $from:literal; $($byte:expr),*) => {{
        const BYTES: &[u8] = &[$($byte),*];
        const WORDS: usize = 1 + BYTES.len().div_ceil(8);
        &at::<WORDS, { WORDS + 2 }>($out_len, $from, words::<WORDS>(BYTES))
    }};
}

/// The same of a struct whose members have one byte each, of so many bytes.
macro_rules! of_bytes {
    ($out_len:literal, $from:literal; $len:literal, $head:expr) => {{
        const WORDS: usize = 1 + ($len as usize).div_ceil(8);
        &at::<WORDS, { WORDS + 2 }>($out_len, $from, words::<WORDS>(&of_bytes::<$len>($head)))
    }};
}

pub const ROWS: &[Row] = &[
    Row {
        number: 54,
        name: "lengthen_counts",
        inputs: &[&[LENGTHENED]],
        // The place, the bytes written, and ten words of the output.
        values: 12,
        cells: &[
            apart(0),
            apart(33),
            apart(34),
            apart(35),
            apart(36),
            apart(37),
            apart(38),
            apart(43).only_at(32),
            apart(6),
            apart(7),
            apart(8),
            apart(9),
            apart(45).at(0, 0),
        ],
        modifier: None,
        label: no_label,
        pages: &[
            // Nothing to read, and nothing to turn: all of it needs room.
            rewriting!(0, 0;),
            rewriting!(1, 0; 8),
            rewriting!(0, 0; 8),
            rewriting!(2, 0; 18, 2),
            rewriting!(1, 0; 18, 2),
            rewriting!(7, 0; 19, 4, 0, 2, 0, 0, 2),
            rewriting!(6, 0; 19, 4, 0, 2, 0, 0, 2),
            // One byte more for each struct; output that is longer, and shorter.
            rewriting!(5, 0; 17, 0, 0, 0),
            rewriting!(4, 0; 17, 0, 0, 0),
            rewriting!(7, 0; 17, 4, 0, 2, 0, 2),
            rewriting!(8, 0; 17, 4, 0, 2, 0, 2),
            rewriting!(512, 0; 17, 4, 0, 2, 0, 2),
            rewriting!(6, 0; 17, 4, 0, 2, 0, 2),
            rewriting!(0, 0; 17, 4, 0, 2, 0, 2),
            rewriting!(15, 0; 17, 0, 0, 2, 17, 0, 0, 1, 2, 17, 0, 0, 0),
            rewriting!(14, 0; 17, 0, 0, 2, 17, 0, 0, 1, 2, 19, 0, 0, 0, 0),
            // 17 and 19 in the count of an array, in alignment, packing and member count are no tags.
            rewriting!(12, 0; 16, 17, 19, 17, 0, 17, 17, 19, 0),
            rewriting!(25, 0; 17, 17, 19, 19, 0, 0, 0, 0, 0, 0, 0, 0, 0, 0, 0, 0, 0, 0, 0, 0, 0, 0, 0),
            // The greatest count of one byte, and more.
            of_bytes!(260, 10; 259, [17, 0, 0, 255, 0]),
            of_bytes!(259, 0; 259, [17, 0, 0, 255, 0]),
            of_bytes!(261, 24; 261, [19, 0, 0, 0, 1]),
            // What the reader refuses, whatever the output.
            rewriting!(0, 0; 17, 4, 0, 2, 0),
            rewriting!(6, 0; 17, 4, 0, 2, 0),
            rewriting!(6, 0; 17, 65),
            rewriting!(6, 0; 20),
            rewriting!(8, 0; 17, 0, 0, 2, 18, 0, 0),
            rewriting!(0, 0; 17, 0, 0, 2, 18, 0, 0),
            rewriting!(6, 0; 17, 0, 0, 0, 17),
        ],
        aim: nowhere,
        ours: |i| rewrites::run(&LENGTHEN, i),
        apart: |i| Some(rewrites::expected(&LENGTHEN, i)),
        rust: |_| unreachable!("the Rust has no descriptions"),
    },
    Row {
        number: 55,
        name: "shorten_counts",
        inputs: &[&[SHORTENED]],
        values: 12,
        cells: &[
            apart(0),
            apart(33),
            apart(34),
            apart(35),
            apart(36),
            apart(37),
            apart(38),
            apart(43).only_at(32),
            apart(6),
            apart(7),
            apart(8),
            apart(9),
            // Behind nothing, a slice, and what is longer: a slice of a slice is refused.
            apart(44).at(0, 1),
            apart(44).at(4, 8),
            apart_for(44, LATER),
            apart(45).at(0, 0),
        ],
        modifier: None,
        label: no_label,
        pages: &[
            rewriting!(0, 0;),
            rewriting!(1, 0; 8),
            rewriting!(0, 0; 8),
            rewriting!(6, 0; 17, 4, 0, 2, 0, 2),
            rewriting!(5, 0; 17, 4, 0, 2, 0, 2),
            // One byte less for each.
            rewriting!(4, 0; 19, 0, 0, 0, 0),
            rewriting!(3, 0; 19, 0, 0, 0, 0),
            rewriting!(6, 0; 19, 4, 0, 2, 0, 0, 2),
            rewriting!(7, 0; 19, 4, 0, 2, 0, 0, 2),
            rewriting!(512, 0; 19, 4, 0, 2, 0, 0, 2),
            rewriting!(5, 0; 19, 4, 0, 2, 0, 0, 2),
            rewriting!(0, 0; 19, 4, 0, 2, 0, 0, 2),
            rewriting!(13, 0; 19, 0, 0, 2, 0, 19, 0, 0, 1, 0, 2, 19, 0, 0, 0, 0),
            rewriting!(13, 0; 17, 0, 0, 2, 19, 0, 0, 1, 0, 2, 17, 0, 0, 0),
            rewriting!(9, 0; 16, 19, 17, 19, 0, 19, 17, 19, 0, 0),
            rewriting!(23, 0; 19, 19, 17, 19, 0, 0, 0, 0, 0, 0, 0, 0, 0, 0, 0, 0, 0, 0, 0, 0, 0, 0, 0, 0),
            // 255 members fit, and one more does not, which is said before the output is found short, and where nothing
            // else would change.
            of_bytes!(259, 10; 260, [19, 0, 0, 255, 0]),
            of_bytes!(258, 0; 260, [19, 0, 0, 255, 0]),
            of_bytes!(261, 0; 261, [19, 0, 0, 0, 1]),
            of_bytes!(0, 0; 261, [19, 0, 0, 0, 1]),
            // What the reader refuses comes first: a struct of 256 members that is cut, or has bytes behind it.
            of_bytes!(261, 0; 260, [19, 0, 0, 0, 1]),
            of_bytes!(261, 0; 262, [19, 0, 0, 0, 1]),
            rewriting!(6, 0; 19, 4, 0, 2, 0),
            rewriting!(6, 0; 19, 65),
            rewriting!(6, 0; 20),
            rewriting!(8, 0; 19, 0, 0, 2, 0, 18, 0, 0),
            rewriting!(0, 0; 19, 0, 0, 2, 0, 18, 0, 0),
            rewriting!(6, 0; 19, 0, 0, 0, 0, 19),
        ],
        aim: nowhere,
        ours: |i| rewrites::run(&SHORTEN, i),
        apart: |i| Some(rewrites::expected(&SHORTEN, i)),
        rust: |_| unreachable!("the Rust has no descriptions"),
    },
];
