//! The inputs of the bench, each in the words of the C interface and, where the Rust is called, in its own types.
//!
//! The Rust refuses none of them by a panic, so that it can be called as it is; on the refused ones it is not called.
//! At 32 bits they are drawn for both widths so that they fit in 32, each time anew from the same random numbers.

use super::exports::Words;
use super::Word;
use crate::bench::descriptions;
use crate::bench::random::Random;
use crate::bench::row::{Answer, Given};
use crate::bench::sets::{Bits, Set};
use crate::bench::width::M;
#[cfg(not(bits32))]
use crate::{layout, nonzero, trailing, CastParams, CastParamsInner, CastType, DstLayout, TrailingSliceLayout};
use core::cell::Cell;
#[cfg(not(bits32))]
use core::num::NonZeroUsize;

/// How many inputs a set has.
const CASES: usize = 256;

/// Numbers for every function.
#[derive(Clone)]
pub struct Case {
    /// A power of two and another, a phase below the first, and a multiple of it.
    pub align: Word,
    pub other_align: Word,
    pub phase: Word,
    pub size: Word,
    pub code: Word,
    /// A layout without a trailing part, a member to add to it, and a packing.
    pub fixed: Words<6>,
    pub field: Words<6>,
    pub packing: Word,
    /// A layout with a trailing part that has a size at the count.
    pub whole: Words<6>,
    pub tail: Words<4>,
    pub count: Word,
    /// Counts of that trailing part, the sum of whose sizes does not overflow.
    pub counts: Vec<Word>,
    /// A trailing part to compare with that one: in turn of the same sizes, of another element size, of another size at
    /// 0, and of another rounding.
    pub other_tail: Words<4>,
    /// The size there, a length that has room for it, and an address that is aligned on the side.
    pub exact: Word,
    pub len: Word,
    pub addr: Word,
    pub suffix: bool,
    /// A source that converts to the whole layout, and how.
    pub source: Words<6>,
    pub params: Words<4>,
    /// The trailing part of the source and the shift, as they match, or one of them changed so that they do not.
    pub source_tail: Words<4>,
    pub shift: Word,
    /// A member list, to be composed under the packing and the alignment asked for, which is 0 but where it is refused;
    /// the whole layout's record, and the room for it.
    pub own_align: Word,
    pub list: Vec<u8>,
    /// The same members by value, and the record of the one that is added to the fixed layout.
    pub members: Vec<Words<6>>,
    pub member: Vec<u8>,
    pub record: Vec<u8>,
    pub room: usize,
    /// The whole layout's short record, and the room for one.
    pub short: Vec<u8>,
    pub short_room: usize,
    /// Records to be moved, in both forms. The room for them in the other form is lent, and stands here as the numbers
    /// below do. The first is also the room for all cases, and for a rewritten description.
    pub records: Vec<u8>,
    pub shorts: Vec<u8>,
    pub shorts_room: Vec<Cell<u8>>,
    pub records_room: Vec<Cell<u8>>,
    /// Numbers to lend, as many as there are members. They stand here, since to make them anew for each call would take
    /// longer than some calls.
    pub places: Vec<Cell<Word>>,
    pub gaps: Vec<Cell<Word>>,
    /// The description of a struct that ends in a slice of a scalar.
    pub description: Vec<u8>,
    #[cfg(not(bits32))]
    pub n: Typed,
}

/// The same in the Rust's types.
#[cfg(not(bits32))]
#[derive(Clone)]
pub struct Typed {
    pub align: NonZeroUsize,
    pub other_align: NonZeroUsize,
    pub fixed: DstLayout,
    pub field: DstLayout,
    pub packing: Option<NonZeroUsize>,
    pub whole: DstLayout,
    pub tail: TrailingSliceLayout,
    pub other_tail: TrailingSliceLayout,
    pub side: CastType,
    pub source: DstLayout,
    pub params: CastParamsInner,
    pub source_tail: TrailingSliceLayout,
    pub list: Vec<DstLayout>,
}

#[cfg(not(bits32))]
impl Typed {
    pub fn params(&self) -> CastParams {
        CastParams { inner: self.params }
    }
}

impl Case {
    /// What a call gives, and the lent numbers and bytes after it, which no call before it wrote.
    pub fn given<T: Answer>(&self, call: impl FnOnce(&Case) -> T) -> Given {
        let numbers = || self.places.iter().chain(&self.gaps);
        let bytes = || self.shorts_room.iter().chain(&self.records_room);
        // The same number at either width.
        numbers().for_each(|number| number.set(Word::from(u32::MAX)));
        bytes().for_each(|byte| byte.set(u8::MAX));
        let answer = call(self);
        Given {
            refusal: answer.refusal(),
            values: answer.values(),
            numbers: numbers().map(|number| number.get().into()).collect(),
            bytes: bytes().map(Cell::get).collect(),
        }
    }
}

fn word(number: u64) -> Word {
    number.try_into().expect("the number fits")
}

fn words<const N: usize>(numbers: [u64; N]) -> Words<N> {
    Words(numbers.map(word))
}

/// The words of a record, which have 64 bits at either width.
pub fn bytes<T: Into<u64> + Copy>(words: &[T]) -> Vec<u8> {
    words.iter().flat_map(|word| (*word).into().to_le_bytes()).collect()
}

/// The short record of a layout.
pub fn short_bytes([align, kind, size_base, offset, elem_size, word]: [u64; 6]) -> Vec<u8> {
    bytes(&[size_base, offset, elem_size, word + ((align.ilog2() as u64) << 32) + (kind << 40)])
}

pub fn cases(set: Set) -> Vec<Case> {
    drawn(set, Bits::ALL, CASES, 0)
}

/// Cases with lists of as many members.
pub fn lists(set: Set, members: usize) -> Vec<Case> {
    drawn(set, Bits::ALL, fewer(set, members), members)
}

/// Fewer cases of long lists, but one for each refusal.
fn fewer(set: Set, members: usize) -> usize {
    let least = if set == Set::Refused { 14 } else { 1 };
    CASES.div_ceil(4 * members).max(least)
}

/// Cases with as many records to move, fixed and trailing ones mixed. A move has no width.
#[cfg(not(bits32))]
pub fn moves(set: Set, records: usize) -> Vec<Case> {
    let mut random = Random::new(set as u64);
    let layouts: Vec<[u64; 6]> = cases(set).iter().flat_map(|case| [case.fixed.0, case.whole.0]).collect();
    let mut cases = drawn(set, Bits::ALL, fewer(set, records), 0);
    for case in &mut cases {
        let drawn: Vec<[u64; 6]> = (0..records).map(|_| layouts[random.below(layouts.len() as u64) as usize]).collect();
        case.records = bytes(&drawn.concat());
        case.shorts = drawn.into_iter().flat_map(short_bytes).collect();
        case.records_room = vec![Cell::new(0); case.records.len()];
        case.shorts_room = vec![Cell::new(0); case.shorts.len()];
    }
    cases
}

/// Cases with a source and a target that the full mode alone converts: elements of half a block, and of the source a
/// phase in the second half of its first block, which has the sizes of a whole block more.
pub fn gained(set: Set) -> Vec<Case> {
    let mut random = Random::new(set as u64);
    let mut cases = cases(set);
    for case in &mut cases {
        let half = 2 * align(&mut random, set, Bits::ALL);
        let phase = word(half + 1 + random.below(half - 1));
        let (base, half) = (case.size, word(half));
        case.source = Words([8, 3, base, 0, half, 2 * half + phase]);
        case.whole = Words([8, 3, base, 0, half, 2 * half]);
    }
    cases
}

/// Cases with as many counts.
pub fn counts(set: Set, len: usize) -> Vec<Case> {
    let mut random = Random::new(set as u64);
    let (share, bits) = (M / len as u64, Bits::of_each(len as u64));
    let mut cases = drawn(set, bits, fewer(set, len), 0);
    for case in &mut cases {
        let [size_base, _, elem_size, _] = case.tail.0.map(u64::from);
        // As in `draw`, of a part of the greatest number for each.
        let last = (share - size_base - (1 << bits.exponent(30))) / elem_size;
        let count = |_| match set {
            Set::Typical | Set::Refused => random.below(256),
            Set::Random => random.log_uniform() % last,
            Set::Worst => last - random.below(16),
        };
        case.counts = (0..len).map(count).map(word).collect();
    }
    cases
}

/// Cases with descriptions of structs of so many members; of 0, of structs inside structs.
pub fn descriptions(set: Set, members: u8) -> Vec<Case> {
    described(set, 17, members)
}

/// The same with room for what they are rewritten to: with long counts, or from those.
pub fn to_lengthen(set: Set, members: u8) -> Vec<Case> {
    let mut cases = described(set, 17, members);
    let longer = described(set, 19, members);
    for (case, longer) in cases.iter_mut().zip(longer) {
        case.shorts_room = vec![Cell::new(0); longer.description.len()];
    }
    cases
}

pub fn to_shorten(set: Set, members: u8) -> Vec<Case> {
    let mut cases = described(set, 19, members);
    let shorter = described(set, 17, members);
    for (case, shorter) in cases.iter_mut().zip(shorter) {
        case.shorts_room = vec![Cell::new(0); shorter.description.len()];
    }
    cases
}

/// Each struct has this tag.
fn described(set: Set, tag: u8, members: u8) -> Vec<Case> {
    let mut random = Random::new(set as u64);
    let mut cases = drawn(set, Bits::ALL, CASES, 0);
    for case in &mut cases {
        case.description = match members {
            0 => descriptions::deep(&mut random, set, tag),
            members => descriptions::wide(&mut random, set, tag, members),
        };
    }
    cases
}

fn drawn(set: Set, bits: Bits, cases: usize, members: usize) -> Vec<Case> {
    let mut random = Random::new(set as u64);
    std::iter::repeat_with(|| draw(&mut random, set, bits, members)).flatten().take(cases).collect()
}

/// A power of two.
fn align(random: &mut Random, set: Set, bits: Bits) -> u64 {
    1 << match set {
        Set::Typical | Set::Refused => random.below(4),
        Set::Random => random.below(bits.exponent(30)),
        Set::Worst => bits.exponent(20) + random.below(bits.exponent(10)),
    }
}

/// A size and an alignment, as of a type.
fn sized(random: &mut Random, set: Set, bits: Bits) -> (u64, u64) {
    let align = align(random, set, bits);
    let times = match set {
        Set::Typical | Set::Refused => 1 + random.below(3),
        Set::Random => 1 + random.log_uniform() % (1 << bits.exponent(20)),
        Set::Worst => 15 - 2 * random.below(4),
    };
    (align * times, align)
}

fn fixed(random: &mut Random, set: Set, bits: Bits) -> [u64; 6] {
    let (size, align) = sized(random, set, bits);
    crate::for_unpadded_type(size, align).unwrap()
}

/// A number, where it is at most M.
fn fits(number: Option<u64>) -> Option<u64> {
    number.filter(|number| *number <= M)
}

/// The last four words of a layout.
fn tail([_, _, tail @ ..]: [u64; 6]) -> [u64; 4] {
    tail
}

/// A source for the target: the same rounding further on, or for the worst case another one with a phase.
fn source(random: &mut Random, set: Set, target: [u64; 6]) -> Option<[u64; 6]> {
    let [_, offset, elem_size, word] = tail(target);
    let [shift, times] = [1 + random.below(3), 1 + random.below(3)];
    if set != Set::Worst {
        let (bytes, elem_size) = (fits(shift.checked_mul(elem_size))?, fits(elem_size.checked_mul(times))?);
        let [base, _, elem_size, word] = crate::advance(tail(target), bytes, elem_size).ok()?;
        return Some([target[0], target[1], base, offset, elem_size, word]);
    }
    // Twice the alignment of the rounding, phase 1, and elements that are a multiple of both alignments.
    let size = crate::size_for_elems(tail(target), shift).ok()?[0];
    let align: u64 = 2 << word.ilog2();
    let times = align >> elem_size.trailing_zeros().min(align.ilog2());
    Some([target[0], target[1], size.checked_sub(align)?, offset, elem_size * times, align + 1])
}

/// The trailing part with another rounding, of twice the alignment, that has the same size at 0.
fn other_rounding(tail: [u64; 4]) -> Option<[u64; 4]> {
    let [_, offset, elem_size, word] = tail;
    let size = crate::size_for_elems(tail, 0).ok()?[0];
    Some([size, offset, elem_size, 2 << word.ilog2()])
}

/// The same sizes with a phase, where elements are whole multiples of the alignment; else only the offset is another.
fn same_sizes([size_base, offset, elem_size, word]: [u64; 4]) -> [u64; 4] {
    if word.is_power_of_two() && word > 1 && elem_size % word == 0 && size_base >= word {
        return [size_base - word, offset, elem_size, word + 1];
    }
    [size_base, offset ^ 1, elem_size, word]
}

fn other_tail(random: &mut Random, tail: [u64; 4]) -> Option<[u64; 4]> {
    let [size_base, offset, elem_size, word] = tail;
    match random.below(4) {
        0 => Some(same_sizes(tail)),
        1 => Some([size_base, offset, fits(elem_size.checked_add(1))?, word]),
        2 => Some([fits(size_base.checked_add(1 << word.ilog2()))?, offset, elem_size, word]),
        _ => other_rounding(tail),
    }
}

/// None where the Rust would panic, or there is no conversion to take.
fn draw(random: &mut Random, set: Set, bits: Bits, members: usize) -> Option<Case> {
    let (size, align) = sized(random, set, bits);
    let other_align = self::align(random, set, bits);
    let packing = if random.one_in(2) { 0 } else { self::align(random, set, bits) };
    let head = crate::compose(0, 0, &[fixed(random, set, bits), fixed(random, set, bits)]).ok()?;
    let (elem_size, elem_align) = sized(random, set, bits);
    let slice = crate::for_slice(elem_size, elem_align).ok()?;
    let field = if random.one_in(2) { fixed(random, set, bits) } else { slice };
    // The greatest alignment makes the greatest phases.
    let own_align = if set == Set::Worst { 1 << bits.exponent(29) } else { 0 };
    let whole = crate::for_repr_c_struct(own_align, packing, &[head, slice]).ok()?;
    let last = (M - whole[2] - (1 << bits.exponent(30))) / elem_size;
    let count = match set {
        Set::Typical | Set::Refused => random.below(256),
        Set::Random => random.log_uniform() % last,
        Set::Worst => last / 2 - random.below(16),
    };
    let exact = crate::size_for_elems(tail(whole), count).ok()?[0];
    let len = fits(exact.checked_add(random.below(elem_size)))?;
    let suffix = random.one_in(2);
    let end = fits((len.checked_add(random.below(1 << 20))?).checked_next_multiple_of(whole[0]))?;
    let addr = if suffix { end - len } else { end };
    fits(addr.checked_add(len))?;
    let source = source(random, set, whole)?;
    let params = crate::try_compute(source, whole).ok()?;
    let other_tail = other_tail(random, tail(whole))?;
    let (source_tail, shift) = match random.below(4) {
        0 | 1 => (tail(source), params[1]),
        2 => (tail(source), fits(params[1].checked_add(1))?),
        _ => (other_rounding(tail(source))?, params[1]),
    };
    let list: Vec<[u64; 6]> = (0..members).map(|_| fixed(random, set, bits)).collect();
    crate::for_repr_c_struct(0, packing, &list).ok()?;
    Some(Case {
        align: word(align),
        other_align: word(other_align),
        phase: word(random.below(align)),
        size: word(size),
        code: word(random.below(9)),
        fixed: words(head),
        field: words(field),
        packing: word(packing),
        whole: words(whole),
        tail: words(tail(whole)),
        count: word(count),
        counts: Vec::new(),
        description: Vec::new(),
        other_tail: words(other_tail),
        exact: word(exact),
        len: word(len),
        addr: word(addr),
        suffix,
        source: words(source),
        params: words(params),
        source_tail: words(source_tail),
        shift: word(shift),
        record: bytes(&whole),
        room: 48,
        short: short_bytes(whole),
        short_room: 32,
        records: Vec::new(),
        shorts: Vec::new(),
        shorts_room: Vec::new(),
        records_room: Vec::new(),
        own_align: 0,
        list: bytes(&list.concat()),
        members: list.iter().copied().map(words).collect(),
        member: bytes(&field),
        places: vec![Cell::new(0); members],
        gaps: vec![Cell::new(0); members],
        #[cfg(not(bits32))]
        n: Typed {
            align: nonzero(align),
            other_align: nonzero(other_align),
            fixed: layout(head),
            field: layout(field),
            packing: NonZeroUsize::new(packing as usize),
            whole: layout(whole),
            tail: trailing(tail(whole)),
            other_tail: trailing(other_tail),
            side: if suffix { CastType::Suffix } else { CastType::Prefix },
            source: layout(source),
            params: CastParamsInner::UnsizedToUnsized {
                offset_delta_elems: params[1] as usize,
                elem_multiple: params[2] as usize,
            },
            source_tail: trailing(source_tail),
            list: list.into_iter().map(layout).collect(),
        },
    })
}
