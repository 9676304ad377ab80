//! Demand 3, the conversion guarantee, of the numbers that a chain gave, by its definition. It shares nothing with
//! either side.

use crate::answer::Answer;
use crate::width;

const M: u128 = width::M as u128;

type Layout = [u64; 6];

/// What is broken of the guarantee. The inputs are those of `convert_and_cast`.
pub fn broken(inputs: &[u64], answer: &Answer) -> Option<&'static str> {
    let [src, dst]: [Layout; 2] = [&inputs[..6], &inputs[6..12]].map(|words| words.try_into().unwrap());
    let [src_meta, addr, bytes_len, more_len] = inputs[12..] else { unreachable!() };
    let [_, _, _, _, count_refusal, count, ref casts @ ..] = answer.values;
    if answer.refusal != 0 || size(src, src_meta) > M {
        return None;
    }
    if count_refusal != 0 || !is_count(dst, count) || size(dst, count) != size(src, src_meta) {
        return Some("the converted count has another size than the source's");
    }
    let within = |len: u64| u128::from(addr) + u128::from(len) <= M;
    if size(src, src_meta) > bytes_len.into() || addr % dst[0] != 0 || !within(bytes_len) {
        return None;
    }
    if !keeps(dst, bytes_len, count, &casts[..3]) {
        return Some("the first cast does not keep the converted count");
    }
    if more_len >= bytes_len && within(more_len) && !keeps(dst, more_len, casts[1], &casts[3..]) {
        return Some("the second cast does not keep the count of the first");
    }
    None
}

/// A fixed layout has one count.
fn is_count([_, kind, ..]: Layout, count: u64) -> bool {
    kind & 2 != 0 || count == 0
}

/// The base and the elements rounded up, over unlimited numbers. A fixed source ignores the count.
fn size([_, kind, size_base, _, elem_size, word]: Layout, count: u64) -> u128 {
    if kind & 2 == 0 {
        return size_base.into();
    }
    let align = 1 << word.ilog2();
    let phase = u128::from(word) - align;
    let rounded = (phase + u128::from(count) * u128::from(elem_size)).next_multiple_of(align);
    // What passes even these numbers passes M.
    rounded.saturating_add(size_base.into())
}

/// A cast that is granted `least` elements or more, the most that so many bytes hold, and splits after them.
fn keeps(layout: Layout, bytes: u64, least: u64, cast: &[u64]) -> bool {
    let &[0, count, split] = cast else { return false };
    let next_fits = |next| is_count(layout, next) && size(layout, next) <= bytes.into();
    count >= least
        && size(layout, count) == split.into()
        && split <= bytes
        && !count.checked_add(1).is_some_and(next_fits)
}
