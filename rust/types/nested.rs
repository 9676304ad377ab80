//! Compares what descriptions read as with the compiler: nested.py has written random types inside types. The bytes of
//! a type are put together by its parts alone, which have theirs.

use crate::compiler::compiler;
use crate::exports::*;
use crate::{check_places, composed, equal, Checked, BYTES, COUNTS};
use std::mem::{align_of, align_of_val, offset_of, size_of, size_of_val};
use std::ptr::slice_from_raw_parts;

type Check = fn() -> Checked;

/// A type that has a description, and how many structs, arrays and slices are open in it at once.
trait Described {
    const DEPTH: usize;
    /// The members of a struct.
    const MEMBERS: usize = 0;

    /// Appends it.
    fn describe(out: &mut Vec<u8>);
}

macro_rules! scalars {
    ($($scalar:ty = $code:literal),*) => {
        $(impl Described for $scalar {
            const DEPTH: usize = 0;

            fn describe(out: &mut Vec<u8>) {
                out.push($code);
            }
        })*
    };
}
scalars!(u8 = 0, u16 = 1, u32 = 2, u64 = 3, f32 = 4, f64 = 5, char = 6, bool = 7, usize = 8);

impl<T: Described, const N: usize> Described for [T; N] {
    const DEPTH: usize = 1 + T::DEPTH;

    fn describe(out: &mut Vec<u8>) {
        out.push(16);
        out.extend((N as u32).to_le_bytes());
        T::describe(out);
    }
}

impl<T: Described> Described for [T] {
    const DEPTH: usize = 1 + T::DEPTH;

    fn describe(out: &mut Vec<u8>) {
        out.push(18);
        T::describe(out);
    }
}

/// 0 for none, else 1 + the power.
fn power(asked: u64) -> u8 {
    match asked {
        0 => 0,
        power => 1 + power.ilog2() as u8,
    }
}

const fn greatest(depths: &[usize]) -> usize {
    let (mut most, mut at) = (0, 0);
    while at < depths.len() {
        if depths[at] > most {
            most = depths[at];
        }
        at += 1;
    }
    most
}

/// The head of a struct: the count has two bytes where one has no room for it, and where it is odd.
fn struct_head(align: u64, packing: u64, members: usize) -> Vec<u8> {
    let [low, high] = (members as u16).to_le_bytes();
    if members > 255 || members % 2 == 1 {
        return vec![19, power(align), power(packing), low, high];
    }
    vec![17, power(align), power(packing), low]
}

/// What bytes read as; refused, it is all zeros, which no layout is.
fn read_bytes(description: &[u8]) -> [u64; 6] {
    // SAFETY: the bytes are as many as said.
    let told = unsafe { lukaripe_read(description.as_ptr(), description.len()) };
    told.values[1..].try_into().unwrap()
}

/// The same with every count in two bytes.
fn read_lengthened(description: &[u8]) -> [u64; 6] {
    let mut out = vec![0; 2 * description.len()];
    // SAFETY: the bytes are as many as said.
    let told =
        unsafe { lukaripe_lengthen_counts(description.as_ptr(), description.len(), out.as_mut_ptr(), out.len()) };
    read_bytes(&out[..told.values[1] as usize])
}

/// What the description reads as, and no layout where it reads as another one with long counts.
fn read<T: Described + ?Sized>() -> [u64; 6] {
    let mut description = Vec::new();
    T::describe(&mut description);
    let layout = read_bytes(&description);
    if read_lengthened(&description) != layout {
        return [0; 6];
    }
    layout
}

/// What is read is what composition by hand gives of what the members read as.
fn check_by_hand(align: u64, packing: u64, members: &[[u64; 6]], read: [u64; 6]) -> Result<(), String> {
    let by_hand = composed(lukaripe_for_repr_c_struct, align, packing, members);
    if by_hand == read {
        return Ok(());
    }
    Err(format!("read {read:?}, by hand {by_hand:?}"))
}

/// An array of a type, where there may be one part more.
fn check_array<T: Described>() -> Checked {
    if T::DEPTH == MOST_OPEN {
        return Ok(0);
    }
    let [align, _, size, ..] = read::<[T; 3]>();
    equal("alignment of an array", align, compiler(align_of::<[T; 3]>()))?;
    equal("size of an array", size, compiler(size_of::<[T; 3]>()))?;
    Ok(2)
}

/// As many parts may be open.
const MOST_OPEN: usize = 16;

/// Defines a struct, and its description.
macro_rules! define {
    ($repr:meta, $align:literal, $packing:literal, $name:ident { $($field:ident: $type:ty),* }) => {
        #[$repr]
        #[allow(dead_code)]
        struct $name { $($field: $type),* }

        impl Described for $name {
            const DEPTH: usize = 1 + greatest(&[$(<$type as Described>::DEPTH),*]);
            const MEMBERS: usize = {
                let members: &[&str] = &[$(stringify!($field)),*];
                members.len()
            };

            fn describe(out: &mut Vec<u8>) {
                out.extend(struct_head($align, $packing, Self::MEMBERS));
                $(<$type as Described>::describe(out);)*
            }
        }
    };
}

macro_rules! fixed {
    ($repr:meta, $align:literal, $packing:literal, $name:ident { $($field:ident: $type:ty),* }) => {
        define!($repr, $align, $packing, $name { $($field: $type),* });

        impl $name {
            fn check() -> Checked {
                let read_as = read::<$name>();
                let [align, _, size, ..] = read_as;
                equal("alignment", align, compiler(align_of::<$name>()))?;
                equal("size", size, compiler(size_of::<$name>()))?;
                let members: &[[u64; 6]] = &[$(read::<$type>()),*];
                let places: &[usize] = &[$(compiler(offset_of!($name, $field))),*];
                check_places($align, $packing, members, places)?;
                check_by_hand($align, $packing, members, read_as)?;
                Ok(2 + 2 * places.len() + check_array::<$name>()?)
            }
        }
    };
}

macro_rules! ends_in_slice {
    ($repr:meta, $align:literal, $packing:literal, $name:ident { $($field:ident: $type:ty),* }) => {
        define!($repr, $align, $packing, $name { $($field: $type),* });

        impl $name {
            fn at(count: usize) -> &'static $name {
                let start = slice_from_raw_parts(BYTES.0.as_ptr(), count) as *const $name;
                // SAFETY: the bytes are zeros, aligned, and more than the few members and elements take.
                unsafe { &*start }
            }

            fn check() -> Checked {
                let read_as = read::<$name>();
                let [align, _, tail @ ..] = read_as;
                let empty = $name::at(0);
                equal("alignment", align, compiler(align_of_val(empty)))?;
                let start = (empty as *const $name).cast::<u8>() as usize;
                let places: &[usize] = &[$(compiler((&raw const empty.$field).cast::<u8>() as usize - start)),*];
                let members: &[[u64; 6]] = &[$(read::<$type>()),*];
                check_places($align, $packing, members, places)?;
                check_by_hand($align, $packing, members, read_as)?;
                for count in COUNTS {
                    let told = lukaripe_size_for_elems(Words(tail), count as u64);
                    equal(&format!("size at {count}"), told.values[0], compiler(size_of_val($name::at(count))))?;
                }
                Ok(1 + 2 * places.len() + COUNTS.len())
            }
        }
    };
}

include!(env!("NESTED"));

/// What was found, in one line, or what differs.
pub fn check_all() -> Result<String, String> {
    let mut compared = 0;
    for (at, check) in CHECKS.iter().enumerate() {
        compared += check().map_err(|what| format!("DIFFERENCE in N{at} of {}: {what}", env!("NESTED")))?;
    }
    let deep = DEPTHS.iter().filter(|depth| **depth > 4).count();
    let many = MEMBERS.iter().filter(|members| **members > 255).count();
    Ok(format!(
        "{} descriptions, {deep} of them more than 4 and up to {} parts deep and {many} of more than 255 members: \
         {compared} alignments, sizes, places and gaps are the compiler's",
        CHECKS.len(),
        greatest(DEPTHS),
    ))
}
