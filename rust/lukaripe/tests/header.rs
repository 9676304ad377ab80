//! The C headers and this crate agree on the sizes of the structs and the places of their numbers, the numbers of the
//! constants, the words of the refusals and the version.
//!
//! tools/wrapper-test runs this: LUKARIPE_HEADER_SAYS names the file that its C program writes, and
//! LUKARIPE_HEADER_SAYS32 that of the program of 32 bits.

#[path = "../src/exports.rs"]
mod exports;
#[path = "../src/exports32.rs"]
mod exports32;

use lukaripe::{Refusal, Scalar, CASES_LENGTH, CASE_LENGTH, RECORD_LENGTH, SHORT_RECORD_LENGTH};
use lukaripe::{DESCRIPTION_DEPTH, TAG_ARRAY, TAG_LONG_STRUCT, TAG_SLICE, TAG_STRUCT};
use std::collections::BTreeSet;
use std::fmt::Debug;
use std::mem::{align_of, offset_of, size_of};
use std::{env, fs};

/// Where each number stands, and how wide it is: the size alone hides what padding makes up for.
type Places = Vec<(usize, usize)>;

trait Numbers {
    fn numbers() -> Places;
}

impl Numbers for u32 {
    fn numbers() -> Places {
        vec![(0, size_of::<u32>())]
    }
}

impl Numbers for u64 {
    fn numbers() -> Places {
        vec![(0, size_of::<u64>())]
    }
}

impl<T: Numbers, const N: usize> Numbers for [T; N] {
    fn numbers() -> Places {
        (0..N).flat_map(|index| numbers_at::<T>(index * size_of::<T>())).collect()
    }
}

fn numbers_at<T: Numbers>(start: usize) -> Places {
    T::numbers().into_iter().map(|(place, width)| (start + place, width)).collect()
}

/// Those of a field, which says of what type it is.
fn numbers_in<S, T: Numbers>(start: usize, _: fn(&S) -> &T) -> Places {
    numbers_at::<T>(start)
}

/// The fields, in the order that they have in C.
macro_rules! fields {
    ($(<$($parameter:ident: $of:ty)?> $struct:ty { $($field:tt),* })*) => {
        $(impl<$(const $parameter: $of)?> Numbers for $struct {
            fn numbers() -> Places {
                [$(numbers_in(offset_of!($struct, $field), |of: &$struct| &of.$field)),*].concat()
            }
        })*
    };
}

fields! {
    <N: usize> exports::Told<N> { refusal, values }
    <N: usize> exports::Words<N> { 0 }
    <> exports::Carried { computed, count, first, second }
    <N: usize> exports32::Told<N> { refusal, values }
    <N: usize> exports32::Words<N> { 0 }
    <> exports32::Carried { computed, count, first, second }
    <> exports32::Placed { refusal, place, layout }
    <> exports32::Moved { refusal, place, written }
    <> exports32::Share {
        refusal, place, padding_numerator, padding_denominator, mean_numerator, mean_denominator, greatest, index
    }
    <> exports32::Serving { map_refusal, spare_refusal, serves, count, split }
}

fn of_struct<T: Numbers>(name: &str) -> String {
    let mut line = format!("struct {name} {} {}", size_of::<T>(), align_of::<T>());
    for (place, width) in T::numbers() {
        line += &format!(" {place}+{width}");
    }
    line
}

fn of_constant(name: &str, number: u64) -> String {
    format!("constant LUKARIPE_{name} {number}")
}

/// NoRoom is LUKARIPE_REFUSED_NO_ROOM in C.
fn of_case(group: &str, case: impl Debug, number: u64) -> String {
    let mut name = group.to_string();
    for letter in format!("{case:?}").chars() {
        if letter.is_uppercase() {
            name.push('_');
        }
        name.push(letter.to_ascii_uppercase());
    }
    of_constant(&name, number)
}

/// What exports32.rs has structs of its own for.
mod exports64 {
    pub use super::exports::*;

    pub type Share = Told<7>;
    pub type Placed = Told<7>;
    pub type Serving = Told<4>;
}

/// The structs that both headers have: the types of a module of exports, by their names in C behind the prefix.
macro_rules! structs {
    ($exports:ident, $prefix:literal) => {{
        use $exports::*;
        vec![
            of_struct::<Told<1>>(concat!($prefix, "number")),
            of_struct::<Told<2>>(concat!($prefix, "components")),
            of_struct::<Trailing>(concat!($prefix, "trailing")),
            of_struct::<Told<4>>(concat!($prefix, "trailing_answer")),
            of_struct::<Told<3>>(concat!($prefix, "normal_form_answer")),
            of_struct::<Share>(concat!($prefix, "padding_share")),
            of_struct::<Layout>(concat!($prefix, "layout")),
            of_struct::<Told<6>>(concat!($prefix, "layout_answer")),
            of_struct::<Placed>(concat!($prefix, "composed")),
            of_struct::<Told<2>>(concat!($prefix, "cast")),
            of_struct::<CastParams>(concat!($prefix, "cast_params")),
            of_struct::<Told<4>>(concat!($prefix, "cast_params_answer")),
            of_struct::<Carried>(concat!($prefix, "carried")),
            of_struct::<Serving>(concat!($prefix, "serving")),
        ]
    }};
}

/// The one that has no width, and so stands in lukaripe.h alone; each of the exports declares it.
fn moved() -> Vec<String> {
    vec![of_struct::<exports::Told<2>>("lukaripe_moved"), of_struct::<exports32::Moved>("lukaripe_moved")]
}

/// The kinds have no names in this crate.
fn constants() -> Vec<String> {
    let mut constants = vec![
        of_constant("KIND_FIXED", 0),
        of_constant("KIND_FIXED_MARKED", 1),
        of_constant("KIND_TRAILING", 2),
        of_constant("KIND_TRAILING_MARKED", 3),
        of_constant("KIND_ALIGN_MODIFIER", 4),
        of_constant("FIXED_TO_FIXED", 0),
        of_constant("FIXED_TO_TRAILING", 1),
        of_constant("TRAILING_TO_TRAILING", 2),
        of_constant("CASE_LENGTH", CASE_LENGTH as u64),
        of_constant("CASES_LENGTH", CASES_LENGTH as u64),
        of_constant("NEITHER_SERVES", 0),
        of_constant("MAP_SERVES", 1),
        of_constant("SPARE_SERVES", 2),
        of_constant("RECORD_LENGTH", RECORD_LENGTH as u64),
        of_constant("TAG_ARRAY", TAG_ARRAY.into()),
        of_constant("TAG_STRUCT", TAG_STRUCT.into()),
        of_constant("TAG_SLICE", TAG_SLICE.into()),
        of_constant("TAG_LONG_STRUCT", TAG_LONG_STRUCT.into()),
        of_constant("DESCRIPTION_DEPTH", DESCRIPTION_DEPTH as u64),
        of_constant("SHORT_RECORD_LENGTH", SHORT_RECORD_LENGTH as u64),
    ];
    constants.extend(Refusal::all().map(|refusal| of_case("REFUSED", refusal, refusal.number())));
    constants.extend(Scalar::all().map(|scalar| of_case("SCALAR", scalar, scalar.code())));
    constants
}

fn texts() -> Vec<String> {
    Refusal::all().map(|refusal| format!("text {} {refusal}", refusal.number())).collect()
}

/// Either header has the version, and beside it the lines that are given.
fn compare(variable: &str, lines: &[Vec<String>]) {
    let file = env::var(variable).expect(variable);
    let header: BTreeSet<String> = fs::read_to_string(file).unwrap().lines().map(String::from).collect();
    let version = format!("version {}", env!("CARGO_PKG_VERSION"));
    let rust: BTreeSet<String> = lines.concat().into_iter().chain([version]).collect();
    let of_header: Vec<_> = header.difference(&rust).collect();
    let of_rust: Vec<_> = rust.difference(&header).collect();
    assert_eq!(of_header, of_rust, "only of the header, and only of this crate");
}

#[test]
#[ignore = "tools/wrapper-test runs it"]
fn agrees_with_the_header() {
    compare("LUKARIPE_HEADER_SAYS", &[structs!(exports64, "lukaripe_"), moved(), constants(), texts()]);
}

#[test]
#[ignore = "tools/wrapper-test runs it"]
fn agrees_with_the_header_of_32_bits() {
    compare("LUKARIPE_HEADER_SAYS32", &[structs!(exports32, "lukaripe32_")]);
}
