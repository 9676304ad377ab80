//! Equal sizes, normal forms and conversions by them, written from the documents alone: sizes are unlimited whole
//! numbers, and are compared at counts. It shares nothing with either side.

use crate::width;

const M: i128 = width::M as i128;

/// The sizes of a trailing layout: base, alignment, phase and element size. The base may be any whole number, and so
/// may the phase, which an advance adds to.
#[derive(Clone, Copy)]
pub struct Sizes {
    base: i128,
    align: i128,
    phase: i128,
    elem: i128,
}

/// What is left of a whole number, below 0 too, when multiples of a power of two are taken away.
fn modulo(number: i128, power: i128) -> i128 {
    number & (power - 1)
}

fn up(number: i128, align: i128) -> i128 {
    number + modulo(-number, align)
}

fn down(number: i128, align: i128) -> i128 {
    number - modulo(number, align)
}

impl Sizes {
    /// Of words that are a layout's: the rounding word is not 0.
    pub fn of([size_base, _, elem_size, word]: [u64; 4]) -> Sizes {
        let align = 1i128 << word.ilog2();
        Sizes { base: size_base.into(), align, phase: i128::from(word) - align, elem: elem_size.into() }
    }

    fn at(self, count: i128) -> i128 {
        self.base + up(self.phase + count * self.elem, self.align)
    }

    /// The size less the bytes of the elements. Where these are equal sizes are compared by it: at a great count even
    /// the numbers here would not hold the size.
    fn added(self, count: i128) -> i128 {
        let bytes = modulo(count.wrapping_mul(self.elem), self.align);
        self.base + up(self.phase + bytes, self.align) - bytes
    }

    /// With so many bytes more before the rounding, and another element size.
    fn advanced(self, bytes: i128, elem: i128) -> Sizes {
        Sizes { phase: self.phase + bytes, elem, ..self }
    }

    /// Where the elements would begin if the size were rounded from there.
    fn size_offset(self) -> i128 {
        down(self.base, self.align) + self.phase
    }

    /// A count at which the bytes come this close to the end of a block: `left` of them are missing, the least of what
    /// the elements can leave, and more by a multiple of the step.
    fn count_with(self, left: i128, step: i128) -> i128 {
        let least = modulo(-self.phase, step);
        let blocks = self.align / step;
        // n * e is so much more than a multiple of A: an odd multiple of the step goes through all of its multiples.
        let wanted = modulo(-self.phase - least - left, self.align) / step;
        modulo(wanted * inverse(self.elem / step, blocks), blocks)
    }

    /// The counts at which least and most is added to the bytes of the elements. What is added repeats with the counts
    /// that are A over the step apart, where the step is the greatest power of two that divides A and e.
    fn extremes(self) -> [i128; 2] {
        let step = if self.elem == 0 { self.align } else { self.align.min(self.elem & -self.elem) };
        [self.count_with(0, step), self.count_with(self.align - step, step)]
    }
}

/// The inverse of an odd number modulo a power of two, which doubles the bits that are right at each step.
fn inverse(odd: i128, modulus: i128) -> i128 {
    let odd = modulo(odd, modulus);
    let mut inverse = 1;
    for _ in 0..6 {
        inverse = modulo(inverse * (2 - modulo(odd * inverse, modulus)), modulus);
    }
    inverse
}

/// Whether two have the same size at every count. With different elements they have not. With the same it is enough to
/// compare them where either adds least and most: if the sizes are equal at these four counts, both add the same least
/// and the same most, so both have the same A or add always the same, and both add least at the same counts.
pub fn agree(first: Sizes, second: Sizes) -> bool {
    if first.elem != second.elem {
        return false;
    }
    let [[least, most], [other_least, other_most]] = [first.extremes(), second.extremes()];
    let counts = [least, most, other_least, other_most];
    let yes = counts.iter().all(|count| first.added(*count) == second.added(*count));
    // That it is enough is looked at too.
    let more = (0..8).chain([13, 64, 1001, (1 << 32) - 1, (1 << 61) + 1]).chain(counts.iter().map(|count| count + 1));
    assert!(
        !yes || more.into_iter().all(|count| first.added(count) == second.added(count)),
        "equal at four counts alone"
    );
    yes
}

/// The layout of a form.
fn with(align: i128, phase: i128, like: Sizes) -> Sizes {
    // The base is what the size at 0 leaves for it.
    Sizes { base: like.at(0) - up(phase, align), align, phase, elem: like.elem }
}

/// Up to this alignment every phase is tried in turn.
const TRIED: i128 = 16;

/// The least phase with this alignment that gives the same sizes. Of phases up to one that does, others do from some
/// point on, and 0 may.
fn least_phase(layout: Sizes, align: i128) -> Option<i128> {
    // Most differ where the layout adds least or most.
    let extremes = layout.extremes();
    let same = |phase: &i128| {
        let other = with(align, *phase, layout);
        extremes.iter().all(|count| layout.added(*count) == other.added(*count)) && agree(layout, other)
    };
    if align <= TRIED {
        return (0..align).find(|phase| same(phase));
    }
    if same(&0) {
        return Some(0);
    }
    if align < layout.align {
        // Some that could.
        return [1, 2, align / 2, align - 1, layout.phase % align].into_iter().filter(same).min();
    }
    let (mut other, mut least) = (0, layout.phase);
    while least - other > 1 {
        let between = other + (least - other) / 2;
        if same(&between) {
            least = between;
        } else {
            other = between;
        }
    }
    Some(least)
}

/// The normal form: base, element size and word; 2 and 46.
pub fn normal_form(layout: [u64; 4]) -> Result<[u64; 3], u64> {
    if layout[3] == 0 {
        return Err(2);
    }
    let layout = Sizes::of(layout);
    let mut align = 1;
    let form = loop {
        if let Some(phase) = least_phase(layout, align) {
            break with(align, phase, layout);
        }
        align *= 2;
    };
    if !(0..=M).contains(&form.base) {
        return Err(46);
    }
    Ok([form.base as u64, form.elem as u64, (form.align + form.phase) as u64])
}

// ---- conversions ----

/// Whether the target from this count on has the sizes of the source, which has one at 0.
pub fn matches(src: Sizes, dst: Sizes, count: i128) -> bool {
    // What passes even these numbers passes M.
    let bytes = count.saturating_mul(dst.elem).min(M + 1);
    src.at(0) <= M && dst.size_offset() + bytes <= M && agree(src, dst.advanced(bytes, src.elem))
}

/// The greatest count of exactly this size.
fn exact_count(layout: Sizes, size: i128) -> Option<i128> {
    if layout.elem == 0 || layout.at(0) > size {
        return None;
    }
    let (mut within, mut past) = (0, size / layout.elem + 1);
    while past - within > 1 {
        let between = within + (past - within) / 2;
        if layout.at(between) <= size {
            within = between;
        } else {
            past = between;
        }
    }
    (layout.at(within) == size).then_some(within)
}

fn shift(src: Sizes, dst: Sizes) -> Option<i128> {
    let difference = src.size_offset() - dst.size_offset();
    if difference >= 0 && difference % dst.elem == 0 && matches(src, dst, difference / dst.elem) {
        return Some(difference / dst.elem);
    }
    if src.at(0) > M {
        return None;
    }
    exact_count(dst, src.at(0)).filter(|count| matches(src, dst, *count))
}

fn tail([_, _, size_base, offset, elem_size, word]: [u64; 6]) -> [u64; 4] {
    [size_base, offset, elem_size, word]
}

/// The parameters of a conversion in the full mode, of two layouts that are accepted: kind, shift, multiple, count.
pub fn converts(src: [u64; 6], dst: [u64; 6]) -> Result<[u64; 4], u64> {
    let [src_fixed, dst_fixed] = [src, dst].map(|layout| layout[1] & 2 == 0);
    if src[0] < dst[0] {
        return Err(25);
    }
    match (src_fixed, dst_fixed) {
        (true, true) if src[2] == dst[2] => Ok([0, 0, 0, 0]),
        (true, true) => Err(26),
        (true, false) => {
            let count = exact_count(Sizes::of(tail(dst)), src[2].into());
            count.map(|count| [1, 0, 0, count as u64]).ok_or(28)
        }
        (false, true) => Err(27),
        (false, false) if dst[4] == 0 => Err(29),
        (false, false) if src[4] < dst[4] => Err(30),
        (false, false) if src[4] % dst[4] != 0 => Err(31),
        (false, false) => {
            let shift = shift(Sizes::of(tail(src)), Sizes::of(tail(dst)));
            shift.map(|shift| [2, shift as u64, src[4] / dst[4], 0]).ok_or(32)
        }
    }
}
