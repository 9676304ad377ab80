//! All short member lists.

use super::{apart, no_label, nowhere, Row};
use crate::cases::{expected, run};
use crate::kinds::cases_wanted;

pub const ROWS: &[Row] = &[Row {
    number: 49,
    name: "write_cases",
    inputs: &[&[cases_wanted("longest, out_len, from")]],
    // The bytes written, and ten words of the output.
    values: 11,
    cells: &[apart(0), apart(47), apart(48)],
    modifier: None,
    label: no_label,
    pages: &[
        &[0, 40, 0],
        &[0, 39, 0],
        &[3, 3_400, 415],
        &[3, 3_399, 415],
        &[6, 218_440, 27_295],
        &[6, 218_496, 27_302],
        &[6, 218_439, 0],
        // 47 before 48.
        &[7, 0, 0],
        &[7, 218_496, 0],
        &[u64::MAX, 218_496, 0],
    ],
    aim: nowhere,
    ours: run,
    apart: |i| Some(expected(i)),
    rust: |_| unreachable!("the Rust has no cases"),
}];
