//! In the place of the exports, for the program of 32 bits that only prints what the compiler says: zeros.

#[repr(C)]
pub struct Told<const N: usize> {
    pub refusal: u64,
    pub values: [u64; N],
}

pub struct Words<const N: usize>(pub [u64; N]);

fn zeros<const N: usize>() -> Told<N> {
    Told { refusal: 0, values: [0; N] }
}

macro_rules! composing {
    ($($name:ident)*) => {
        $(pub unsafe extern "C" fn $name(_: u64, _: u64, _: *const u8, _: usize) -> Told<7> {
            zeros()
        })*
    };
}
composing!(lukaripe_for_repr_c_struct lukaripe_for_repr_c_struct_strict);

#[allow(clippy::too_many_arguments)]
pub unsafe fn lukaripe_for_repr_c_struct_places(
    _: u64,
    _: u64,
    _: *const u8,
    _: usize,
    _: *mut u64,
    _: usize,
    _: *mut u64,
    _: usize,
) -> Told<7> {
    zeros()
}

pub fn lukaripe_size_for_elems(_: Words<4>, _: u64) -> Told<1> {
    zeros()
}

pub fn lukaripe_for_slice(_: u64, _: u64) -> Told<6> {
    zeros()
}

pub unsafe fn lukaripe_read(_: *const u8, _: usize) -> Told<7> {
    zeros()
}

pub unsafe fn lukaripe_lengthen_counts(_: *const u8, _: usize, _: *mut u8, _: usize) -> Told<2> {
    zeros()
}
