//! The calls that a program for 32 bits is asked, and how they cross a pipe: as words of 32 bits. Both sides include
//! it.
//!
//! A batch is how many words there are, and then the words. What is asked is calls one behind the other: the call's
//! number, and what is handed over, a list behind its length. What is answered is, for each in turn, 0 and the numbers,
//! or the refusal, behind which a list's place stands.

// Either side takes what it needs.
#![allow(dead_code)]

use extract::{said, AtPlace, Layout, Says};
use std::io::{self, ErrorKind, Read, Write};

/// Hands this table to a macro.
macro_rules! calls {
    ($each:ident) => {
        $each! {
            is_power_of_two(align: u64) -> Says<1>;
            padding_needed_for(len: u64, align: u64) -> Says<1>;
            round_down_to_next_multiple_of_alignment(n: u64, align: u64) -> Says<1>;
            max(a: u64, b: u64) -> Says<1>;
            min(a: u64, b: u64) -> Says<1>;
            rounding_new(align: u64, phase: u64) -> Says<1>;
            rounding_components(word: u64) -> Says<2>;
            rounding_align(word: u64) -> Says<1>;
            size_offset(layout: Trailing) -> Says<1>;
            max_trailing_bytes(layout: Trailing, available_bytes: u64) -> Says<1>;
            padding_for_elems(layout: Trailing, elems: u64) -> Says<1>;
            size_for_elems(layout: Trailing, elems: u64) -> Says<1>;
            advance(layout: Trailing, bytes: u64, elem_size: u64) -> Says<4>;
            has_same_size_sequence(layout: Trailing, other: Trailing) -> Says<1>;
            new_zst(repr_align: u64) -> Says<6>;
            for_type(size: u64, align: u64) -> Says<6>;
            for_unpadded_type(size: u64, align: u64) -> Says<6>;
            for_slice(size: u64, align: u64) -> Says<6>;
            extend(own: Layout, field: Layout, repr_packed: u64) -> Says<6>;
            pad_to_align(own: Layout) -> Says<6>;
            requires_static_padding(own: Layout) -> Says<1>;
            requires_dynamic_padding(own: Layout) -> Says<1>;
            scalar(code: u64) -> Says<6>;
            compose(repr_align: u64, repr_packed: u64; members) -> Result<Layout, AtPlace>;
            for_repr_c_struct(repr_align: u64, repr_packed: u64; members) -> Result<Layout, AtPlace>;
            validate_cast_and_convert_metadata(own: Layout, addr: u64, bytes_len: u64, suffix: bool) -> Says<2>;
            metadata_for_exact_size(own: Layout, size: u64) -> Says<1>;
            size_sequences_match(src: Trailing, dst: Trailing, dst_base: u64) -> Says<1>;
            try_compute(src: Layout, dst: Layout) -> Says<4>;
            cast_metadata(params: Params, src_meta: u64) -> Says<1>;
        }
    };
}

macro_rules! numbered {
    ($($name:ident($($arg:ident: $type:ty),* $(; $list:ident)?) -> $says:ty;)*) => {
        /// The calls by their numbers.
        #[allow(non_camel_case_types)]
        #[derive(Clone, Copy)]
        pub enum Call { $($name),* }

        pub const NAMES: &[&str] = &[$(stringify!($name)),*];
    };
}
calls!(numbered);

/// Both sides run on one machine, whose order of bytes this is.
pub fn send(to: &mut impl Write, words: &[u32]) -> io::Result<()> {
    to.write_all(&(words.len() as u32).to_ne_bytes())?;
    // SAFETY: any bytes of the words are bytes.
    to.write_all(unsafe { std::slice::from_raw_parts(words.as_ptr().cast(), 4 * words.len()) })?;
    to.flush()
}

/// The words of the next batch; None where there is none any more.
pub fn receive(from: &mut impl Read) -> io::Result<Option<Vec<u32>>> {
    let mut len = [0; 4];
    match from.read_exact(&mut len) {
        Err(error) if error.kind() == ErrorKind::UnexpectedEof => return Ok(None),
        read => read?,
    }
    let mut words = vec![0; u32::from_ne_bytes(len) as usize];
    // SAFETY: any bytes are words.
    from.read_exact(unsafe { std::slice::from_raw_parts_mut(words.as_mut_ptr().cast::<u8>(), 4 * words.len()) })?;
    Ok(Some(words))
}

/// A panic that is no refusal.
pub const PANICKED: u32 = u32::MAX;

/// What crosses the pipe. A number that passes 32 bits is a mistake of the asking side.
pub trait Crosses {
    fn put(&self, words: &mut Vec<u32>);
}

impl Crosses for u64 {
    fn put(&self, words: &mut Vec<u32>) {
        words.push(u32::try_from(*self).expect("the number passes 32 bits"));
    }
}

impl Crosses for bool {
    fn put(&self, words: &mut Vec<u32>) {
        words.push(u32::from(*self));
    }
}

impl<const N: usize> Crosses for [u64; N] {
    fn put(&self, words: &mut Vec<u32>) {
        self.iter().for_each(|number| number.put(words));
    }
}

impl Crosses for [Layout] {
    fn put(&self, words: &mut Vec<u32>) {
        (self.len() as u64).put(words);
        self.iter().for_each(|layout| layout.put(words));
    }
}

impl<const N: usize> Crosses for Says<N> {
    fn put(&self, words: &mut Vec<u32>) {
        match self {
            Ok(numbers) => {
                words.push(0);
                numbers.put(words);
            }
            Err(refusal) => refusal.put(words),
        }
    }
}

impl Crosses for Result<Layout, AtPlace> {
    fn put(&self, words: &mut Vec<u32>) {
        match self {
            Ok(layout) => Says::Ok(*layout).put(words),
            Err((refusal, place)) => [*refusal, *place as u64].put(words),
        }
    }
}

/// A refusal by a panic is an answer; a list's is told by its own function, with the place.
pub trait Caught {
    fn caught(call: impl FnOnce() -> Self) -> Self;
}

impl<const N: usize> Caught for Says<N> {
    fn caught(call: impl FnOnce() -> Says<N>) -> Says<N> {
        said(call)
    }
}

impl Caught for Result<Layout, AtPlace> {
    fn caught(call: impl FnOnce() -> Self) -> Self {
        call()
    }
}
