//! How much of the sizes at a list of counts is padding, of request 12 of document 02, by its text: over whole numbers,
//! which u128 holds here. It shares nothing with either side.

use crate::width;

/// What is given: "total padding over total size as a fraction in lowest terms", "the mean size likewise", and "the
/// greatest padding with its first index".
#[derive(Clone, Copy, PartialEq, Eq)]
pub struct Share {
    pub padding: (u128, u128),
    pub mean: (u128, u128),
    pub greatest: u128,
    pub index: usize,
}

/// The totals that it is made of.
pub struct Totals {
    pub size: u128,
    pub padding: u128,
}

const M: u128 = width::M as u128;

/// Alignment and phase: the highest bit of the word, and the rest.
fn parts(word: u64) -> (u128, u128) {
    let align = 1 << word.ilog2();
    (align, u128::from(word) - align)
}

/// The size at a count, above M too.
pub fn size([size_base, _, elem_size, word]: [u64; 4], count: u64) -> u128 {
    let (align, phase) = parts(word);
    let unrounded = phase + u128::from(count) * u128::from(elem_size);
    u128::from(size_base) + unrounded.div_ceil(align) * align
}

/// "o + n·e"
pub fn end([_, offset, elem_size, _]: [u64; 4], count: u64) -> u128 {
    u128::from(offset) + u128::from(count) * u128::from(elem_size)
}

/// "a count without a size keeps its number", then "52 when o + n·e is above the size": the size and the padding.
pub fn sized(layout: [u64; 4], count: u64) -> Result<(u128, u128), u64> {
    if size(layout, 0) > M {
        return Err(39);
    }
    let (size, end) = (size(layout, count), end(layout, count));
    if size > M {
        return Err(15);
    }
    if end > size {
        return Err(52);
    }
    Ok((size, size - end))
}

/// The answer with its totals, or the refusal with its place: "counts are tested in turn, 53 on the sums so far".
pub fn share(layout: [u64; 4], counts: &[u64]) -> Result<(Share, Totals), (u64, usize)> {
    if layout[3] == 0 {
        return Err((2, 0));
    }
    if counts.is_empty() {
        return Err((51, 0));
    }
    let mut totals = Totals { size: 0, padding: 0 };
    let mut paddings = Vec::new();
    for (place, count) in counts.iter().enumerate() {
        let (size, padding) = sized(layout, *count).map_err(|refusal| (refusal, place))?;
        totals.size += size;
        totals.padding += padding;
        if totals.size > M || totals.padding > M {
            return Err((53, place));
        }
        paddings.push(padding);
    }
    let greatest = *paddings.iter().max().unwrap();
    let share = Share {
        padding: if totals.size == 0 { (0, 1) } else { lowest(totals.padding, totals.size) },
        mean: lowest(totals.size, counts.len() as u128),
        greatest,
        index: paddings.iter().position(|padding| *padding == greatest).unwrap(),
    };
    Ok((share, totals))
}

/// Lowest terms, of a divisor that is found by halving and subtracting.
fn lowest(numerator: u128, denominator: u128) -> (u128, u128) {
    let divisor = divisor(numerator, denominator);
    (numerator / divisor, denominator / divisor)
}

/// The greatest number that divides both; the second is not 0.
fn divisor(a: u128, b: u128) -> u128 {
    if a == 0 {
        return b;
    }
    let twos = (a | b).trailing_zeros();
    let (mut a, mut b) = (a >> a.trailing_zeros(), b >> b.trailing_zeros());
    while a != b {
        (a, b) = (a.min(b), a.max(b) - a.min(b));
        b >>= b.trailing_zeros();
    }
    a << twos
}

/// Whether a number from 2 on divides both, tried one by one.
pub fn shares_divisor(numerator: u64, denominator: u64) -> bool {
    // Any number divides 0.
    let most = if numerator == 0 { denominator } else { numerator.min(denominator) };
    (2..=most).any(|divisor| numerator % divisor == 0 && denominator % divisor == 0)
}
