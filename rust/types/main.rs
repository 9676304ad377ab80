//! Compares the exports with the compiler on repr(C) structs: alignments, sizes, the places of members and the gaps
//! before them, and where a struct ends in a slice its sizes at some counts; the same of types that are read from
//! descriptions; and what the strict composition refuses with what the compiler refuses. tools/rustc-types writes the
//! structs, builds and runs.

mod compiler;
#[cfg(not(facts))]
#[path = "../differential/exports.rs"]
mod exports;
#[cfg(facts)]
#[path = "no_exports.rs"]
mod exports;
mod nested;
mod strict;
#[path = "../differential/width.rs"]
mod width;

use compiler::compiler;
use exports::*;
use std::mem::{align_of, align_of_val, offset_of, size_of, size_of_val};
use std::process::ExitCode;
use std::ptr::slice_from_raw_parts;
use width::Word;

/// How many comparisons were made, or what differs.
type Checked = Result<usize, String>;
type Check = fn() -> Checked;

/// Counts of elements to compare sizes at.
const COUNTS: [usize; 8] = [0, 1, 2, 3, 4, 7, 8, 33];

/// What values that end in a slice are looked at in: all zeros, which every type here has as a value.
#[repr(align(65536))]
struct Bytes([u8; 1 << 24]);
static BYTES: Bytes = Bytes([0; 1 << 24]);

/// A type that can be a member: its layout as six words, of a struct by the exports.
trait Member {
    fn layout() -> [u64; 6];
}

fn sized<T>() -> [u64; 6] {
    [compiler(align_of::<T>()) as u64, 1, compiler(size_of::<T>()) as u64, 0, 0, 0]
}

macro_rules! scalars {
    ($($scalar:ty),*) => { $(impl Member for $scalar { fn layout() -> [u64; 6] { sized::<$scalar>() } })* };
}
scalars!(u8, u16, u32, u64, u128, f32, f64, char, bool, usize);

impl<T, const N: usize> Member for [T; N] {
    fn layout() -> [u64; 6] {
        sized::<[T; N]>()
    }
}

impl<T> Member for [T] {
    fn layout() -> [u64; 6] {
        let [align, _, size, ..] = sized::<T>();
        [align, 3, 0, 0, size, align]
    }
}

type Compose = unsafe extern "C" fn(u64, u64, *const u8, usize) -> Told<7>;

/// A composition by an export; refused, it is all zeros, which no layout is.
fn composed(by: Compose, align: u64, packing: u64, members: &[[u64; 6]]) -> [u64; 6] {
    let bytes = records(members);
    // SAFETY: the bytes are as many as said.
    let told = unsafe { by(align, packing, bytes.as_ptr(), bytes.len()) };
    told.values[1..].try_into().unwrap()
}

fn records(members: &[[u64; 6]]) -> Vec<u8> {
    members.as_flattened().iter().flat_map(|word| word.to_le_bytes()).collect()
}

fn equal(what: &str, ours: u64, compiler: usize) -> Result<(), String> {
    if ours == compiler as u64 || cfg!(facts) {
        return Ok(());
    }
    Err(format!("{what}: ours {ours}, the compiler's {compiler}"))
}

/// What the composition with places writes, and that it gives the layout that the other one gives. A gap is what the
/// compiler has between a member and the end of the one before it.
fn check_places(align: u64, packing: u64, members: &[[u64; 6]], places: &[usize]) -> Result<(), String> {
    // Numbers that no member here is placed at, nor stands behind.
    let [mut ours, mut gaps] = [(); 2].map(|()| vec![Word::MAX; members.len()]);
    let layout = composed_with_places(align, packing, members, &mut ours, &mut gaps);
    let ported = composed(lukaripe_for_repr_c_struct, align, packing, members);
    if layout != ported {
        return Err(format!("ours {ported:?}, that of the composition with places {layout:?}"));
    }
    let mut end = 0;
    for (at, place) in places.iter().enumerate() {
        equal(&format!("place of f{at}"), ours[at].into(), *place)?;
        let Some(gap) = place.checked_sub(end) else {
            return Err(format!("the compiler has f{at} at {place}, before the end of the member before it, {end}"));
        };
        equal(&format!("gap before f{at}"), gaps[at].into(), gap)?;
        // Only the last can end in a slice, and nothing stands behind it.
        let [_, _, size, ..] = members[at];
        end = place + size as usize;
    }
    Ok(())
}

fn composed_with_places(
    align: u64,
    packing: u64,
    members: &[[u64; 6]],
    places: &mut [Word],
    gaps: &mut [Word],
) -> [u64; 6] {
    let bytes = records(members);
    // SAFETY: bytes and numbers are as many as said.
    let told = unsafe {
        lukaripe_for_repr_c_struct_places(
            align,
            packing,
            bytes.as_ptr(),
            bytes.len(),
            places.as_mut_ptr(),
            places.len(),
            gaps.as_mut_ptr(),
            gaps.len(),
        )
    };
    told.values[1..].try_into().unwrap()
}

/// None of the structs here is one that the strict composition refuses.
fn check_strict(align: u64, packing: u64, members: &[[u64; 6]]) -> Result<(), String> {
    let ported = composed(lukaripe_for_repr_c_struct, align, packing, members);
    let strict = composed(lukaripe_for_repr_c_struct_strict, align, packing, members);
    if strict == ported {
        return Ok(());
    }
    Err(format!("ours {ported:?}, the strict composition's {strict:?}"))
}

/// Defines a struct, and its layout by the exports.
macro_rules! define {
    ($repr:meta, $align:literal, $packing:literal, $name:ident { $($field:ident: $type:ty),* }) => {
        #[$repr]
        #[allow(dead_code)]
        struct $name { $($field: $type),* }

        impl Member for $name {
            fn layout() -> [u64; 6] {
                composed(lukaripe_for_repr_c_struct, $align, $packing, &[$(<$type>::layout()),*])
            }
        }
    };
}

macro_rules! fixed {
    ($repr:meta, $align:literal, $packing:literal, $name:ident { $($field:ident: $type:ty),* }) => {
        define!($repr, $align, $packing, $name { $($field: $type),* });

        impl $name {
            fn check() -> Checked {
                let [align, _, size, ..] = $name::layout();
                equal("alignment", align, compiler(align_of::<$name>()))?;
                equal("size", size, compiler(size_of::<$name>()))?;
                let places: &[usize] = &[$(compiler(offset_of!($name, $field))),*];
                check_places($align, $packing, &[$(<$type>::layout()),*], places)?;
                check_strict($align, $packing, &[$(<$type>::layout()),*])?;
                Ok(2 + 2 * places.len())
            }
        }
    };
}

macro_rules! ends_in_slice {
    ($repr:meta, $align:literal, $packing:literal, $name:ident { $($field:ident: $type:ty),* }) => {
        define!($repr, $align, $packing, $name { $($field: $type),* });

        impl $name {
            fn at(count: usize) -> &'static $name {
                let start = slice_from_raw_parts(BYTES.0.as_ptr(), count) as *const $name;
                // SAFETY: the bytes are zeros, aligned, and more than the few members and elements take.
                unsafe { &*start }
            }

            fn check() -> Checked {
                let [align, _, tail @ ..] = $name::layout();
                let empty = $name::at(0);
                equal("alignment", align, compiler(align_of_val(empty)))?;
                let start = (empty as *const $name).cast::<u8>() as usize;
                let places: &[usize] = &[$(compiler((&raw const empty.$field).cast::<u8>() as usize - start)),*];
                check_places($align, $packing, &[$(<$type>::layout()),*], places)?;
                check_strict($align, $packing, &[$(<$type>::layout()),*])?;
                for count in COUNTS {
                    let told = lukaripe_size_for_elems(Words(tail), count as u64);
                    equal(&format!("size at {count}"), told.values[0], compiler(size_of_val($name::at(count))))?;
                }
                Ok(1 + 2 * places.len() + COUNTS.len())
            }
        }
    };
}

include!(env!("TYPES"));

/// What was found, a line each, or what differs.
fn check_all() -> Result<[String; 3], String> {
    let mut compared = 0;
    for (at, check) in CHECKS.iter().enumerate() {
        compared += check().map_err(|what| format!("DIFFERENCE in S{at} of {}: {what}", env!("TYPES")))?;
    }
    let structs = format!("{} structs: {compared} alignments, sizes, places and gaps are the compiler's", CHECKS.len());
    let found = [structs, nested::check_all()?, strict::check_all()?];
    if !compiler::all_taken() {
        return Err("fewer numbers are asked for than there are".to_string());
    }
    Ok(found)
}

fn main() -> ExitCode {
    match check_all() {
        // Then the numbers are what is printed.
        Ok(_) if cfg!(facts) => ExitCode::SUCCESS,
        Ok(found) => {
            println!("{}", found.join("\n"));
            ExitCode::SUCCESS
        }
        Err(what) => {
            eprintln!("{what}");
            ExitCode::FAILURE
        }
    }
}
