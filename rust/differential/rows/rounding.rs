//! The rounding word.

use super::{apart, no_label, nowhere, refused, Row, ANSWER};
use crate::exports::*;
use crate::kinds::{align, number, word};
use crate::table::first;
use crate::width::M;

pub const ROWS: &[Row] = &[
    Row {
        number: 6,
        name: "rounding_new",
        inputs: &[&[align("align"), number("phase")]],
        values: 1,
        cells: &[ANSWER, refused(1), refused(3), apart(1)],
        modifier: None,
        label: no_label,
        pages: &[],
        aim: nowhere,
        ours: |i| lukaripe_rounding_new(i[0], i[1]).into(),
        apart: |i| first(&[(1, i[0] == 0)]),
        rust: |i| oracle::rounding_new(i[0], i[1]).into(),
    },
    Row {
        number: 7,
        name: "rounding_components",
        inputs: &[&[word("word")]],
        values: 2,
        cells: &[ANSWER, apart(2)],
        modifier: None,
        label: no_label,
        pages: &[&[1], &[12], &[M]],
        aim: nowhere,
        ours: |i| lukaripe_rounding_components(i[0]).into(),
        apart: |i| first(&[(2, i[0] == 0)]),
        rust: |i| oracle::rounding_components(i[0]).into(),
    },
    Row {
        number: 8,
        name: "rounding_align",
        inputs: &[&[word("word")]],
        values: 1,
        cells: &[ANSWER, apart(2)],
        modifier: None,
        label: no_label,
        pages: &[&[1], &[12], &[M]],
        aim: nowhere,
        ours: |i| lukaripe_rounding_align(i[0]).into(),
        apart: |i| first(&[(2, i[0] == 0)]),
        rust: |i| oracle::rounding_align(i[0]).into(),
    },
];
