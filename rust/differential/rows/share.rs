//! The padding over counts.

use super::{apart, apart_for, no_label, nowhere, Row};
use crate::kinds::HALF;
use crate::shares;
use crate::width::{M, TOP};

const LATER: &str = "behind 9 counts or more";

pub const ROWS: &[Row] = &[Row {
    number: 48,
    name: "padding_of_counts",
    inputs: &[&[shares::INPUT]],
    values: 7,
    cells: &[
        apart(0),
        apart(2).at(0, 0),
        apart(51).at(0, 0),
        apart(39).at(0, 0),
        // Later places in a cell of their own, which holds what those before it do not.
        apart(15).at(0, 8),
        apart_for(15, LATER),
        apart(52).at(0, 8),
        apart_for(52, LATER),
        // One size passes nothing.
        apart(53).at(1, 8),
        apart_for(53, LATER),
    ],
    modifier: None,
    label: no_label,
    pages: &[
        // Sizes 24, 32 and 32, paddings 12, 14 and 8, in several orders.
        &[16, 12, 6, 11, 3, 0, 1, 2],
        &[16, 12, 6, 11, 3, 2, 0, 1],
        &[16, 12, 6, 11, 3, 2, 1, 1],
        // Other lists, of small numbers and of great ones.
        &[8, 9, 1, 5, 1, 3],
        &[8, 9, 1, 5, 2, 4, 0],
        &[8, 9, 1, 5, 12, 0, 1, 2, 3, 4, 5, 6, 7, 8, 9, 10, 11],
        &[8, 9, 1, 5, 12, 11, 10, 9, 8, 7, 6, 5, 4, 3, 2, 1, 0],
        &[8, 9, 1, 5, 9, 3, 7, 11, 15, 19, 23, 27, 31, 35],
        &[8, 8, 1, 5, 9, 3, 7, 11, 15, 19, 23, 27, 31, 35],
        &[8, 8, 1, 5, 10, 3, 7, 11, 15, 19, 23, 27, 31, 34, 35],
        &[0, 0, 3, 8, 8, 1, 2, 3, 4, 5, 6, 7, 8],
        &[0, 0, 3, 8, 7, 8, 16, 24, 32, 40, 48, 41],
        &[0, 0, 8, 8, 3, 1000, 100, 10],
        &[64, 40, 24, 16, 5, 5, 5, 5, 5, 5],
        &[64, 40, 24, 17, 6, 6, 5, 4, 3, 2, 1],
        &[48, 50, 10, 127, 6, 2, 4, 8, 16, 32, 64],
        &[0, 0, 1, 1 << 29, 4, 1, (1 << 29) - 1, 1 << 29, (1 << 29) + 1],
        &[0, 0, 1, HALF, 3, HALF + 1, HALF, HALF - 1],
        &[1 << 29, 1, 1 << 29, 1 << 29, 3, 1, 2, 3],
        &[0, 0, 1, TOP / 2, 3, 0, 1, TOP / 2],
        &[0, 0, HALF, HALF, 2, HALF / 2 - 1, HALF / 2],
        &[TOP / 2, 7, 0, 1, 3, 0, M, 1],
        &[M, 0, 9, 1, 2, 0, 0],
        &[M, 0, 9, 1, 1, 0],
        &[M / 3, 2, 0, 1, 3, 9, 8, 7],
        &[M / 3, M / 3, 0, 1, 3, 9, 8, 7],
        // The mean of sizes whose greatest common divisor with the number of them is 1, 2, 3 and 6.
        &[0, 0, 1, 1, 6, 1, 0, 0, 0, 0, 0],
        &[0, 0, 1, 1, 6, 4, 0, 0, 0, 0, 0],
        &[0, 0, 1, 1, 6, 0, 0, 9, 0, 0, 0],
        &[0, 0, 1, 1, 6, 0, 0, 0, 0, 0, 12],
        // Total 0.
        &[0, 0, 0, 1, 2, 5, 7],
        &[0, 0, 0, 1, 1, M],
        // The end of the elements is one above the size; and M + 4, which modulo M + 1 is below it.
        &[0, 1, 4, 1, 2, 0, 3],
        &[2, M, 1, 1, 1, 4],
        &[M, M, 1, 1, 1, 0],
        // A sum of M, and one more; of two counts, of which either is accepted.
        &[0, 0, 1, 1, 2, M - 1, 1],
        &[0, 0, 1, 1, 3, M - 1, 1, 1],
        &[0, 0, 1, 1, 2, M, 1],
        &[0, 0, 1, 1, 3, M, 0, 0],
        &[M - 7, 0, 0, 8, 2, 1, 1],
        // No size behind one that has it, and none at 0.
        &[0, 0, 2, 1, 2, 0, TOP],
        &[M, 0, 0, 3, 2, 1, 0],
        &[M, M, 1, 3, 1, M],
        // 2 before 51, 51 before 39; of one count no size before the end, and the end before the sum.
        &[0, 0, 1, 0, 0],
        &[0, 0, 1, 0, 1, 0],
        &[M, 0, 0, 3, 0],
        &[0, 0, 1, 1, 0],
        &[0, M, 2, 1, 1, TOP],
        &[M - 8, 0, 8, 8, 2, 1, 2],
        &[M, M, 0, 1, 2, 0, 0],
        &[8, 10, 1, 5, 2, 2, 3],
        &[8, 10, 1, 5, 3, 2, M, 3],
        &[8, 10, 1, 5, 3, 2, 3, M],
    ],
    aim: nowhere,
    ours: shares::run,
    apart: |i| Some(shares::expected(i)),
    rust: |_| unreachable!("the Rust has no totals"),
}];
