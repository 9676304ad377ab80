//! Layouts to try: small ones, ones at the boundaries, and random ones, mostly such as types have.
//!
//! Six words as a record's: alignment, kind, size_base, offset, element size, rounding word.

use crate::kinds::{any, power_of_two, rounding_word, BOUNDARIES, HALF};
use crate::random::Random;
use crate::table::is_fixed;
use crate::width::{BITS, M, TOP};
use oracle::{AtPlace, Layout, Trailing};

pub const FIXED_KINDS: [u64; 4] = [0, 1, 4, 5];
pub const TRAILING_KINDS: [u64; 4] = [2, 3, 6, 7];

// ---- arithmetic to aim by: it wraps, since a number that misses is as good as another ----

/// Alignment and phase. Of word 0 they mean nothing, and any will do.
pub fn parts(word: u64) -> (u64, u64) {
    let align = 1 << word.checked_ilog2().unwrap_or(0);
    (align, word & (align - 1))
}

/// The phase rounded up.
pub fn rounded_phase(word: u64) -> u64 {
    let (align, phase) = parts(word);
    if phase == 0 {
        0
    } else {
        align
    }
}

/// The size at a count.
pub fn size_at([_, kind, size_base, _, elem_size, word]: Layout, count: u64) -> u64 {
    if is_fixed(kind) {
        return size_base;
    }
    let (align, phase) = parts(word);
    let unrounded = phase.wrapping_add(count.wrapping_mul(elem_size));
    size_base.wrapping_add(unrounded.wrapping_add(align - 1) & !(align - 1)) & M
}

/// A source that has the target's sizes from some count on, mostly, and that count.
pub fn source_for(random: &mut Random, [size_base, offset, elem_size, word]: Trailing) -> (Trailing, u64) {
    let (align, phase) = parts(word);
    let shift = random.below(6);
    let moved = phase.wrapping_add(shift.wrapping_mul(elem_size));
    let multiple = 1 + random.below(4);
    if random.one_in(2) {
        // The same rounding, further on.
        let base = size_base.wrapping_add(moved & !(align - 1));
        let source = [base, random.near(offset), elem_size.wrapping_mul(multiple), align + (moved & (align - 1))];
        return (source.map(|number| number & M), shift);
    }
    // Another rounding, and elements that are a multiple of the alignments of both.
    let own = if random.one_in(2) { 1 << random.below(6) } else { rounding_word(random) };
    let larger = align.max(parts(own).0);
    let size = size_base.wrapping_add(moved.wrapping_add(align - 1) & !(align - 1));
    let elem_size = elem_size.wrapping_mul(multiple).wrapping_mul(larger);
    let source = [size.wrapping_sub(rounded_phase(own)), random.near(offset), elem_size, own];
    (source.map(|number| number & M), shift)
}

// ---- every small one ----

/// The powers of two below twice the level.
fn small_aligns(level: u64) -> Vec<u64> {
    (0..BITS).map(|power| 1 << power).take_while(|align| *align < 2 * level).collect()
}

fn small_fixed(level: u64) -> Vec<Layout> {
    let mut layouts = Vec::new();
    for align in small_aligns(level) {
        for kind in FIXED_KINDS {
            layouts.extend((0..2 * level).map(|size| [align, kind, size, 0, 0, 0]));
        }
    }
    layouts
}

fn small_trailing(level: u64) -> Vec<Layout> {
    let mut layouts = Vec::new();
    for align in small_aligns(level) {
        for (kind, offset) in [(2, 0), (2, 3), (3, 0), (3, 3), (6, 3), (7, 0)] {
            for (base, elem_size) in (0..level * level).map(|both| (both / level, both % level)) {
                layouts.extend((1..2 * level).map(|word| [align, kind, base, offset, elem_size, word]));
            }
        }
    }
    layouts
}

pub fn small(level: u64) -> Vec<Layout> {
    let mut layouts = small_fixed(level);
    layouts.extend(small_trailing(level));
    layouts
}

/// One trailing layout is enough to add a member to.
pub fn small_preceding(level: u64) -> Vec<Layout> {
    let mut layouts = small_fixed(level);
    layouts.extend(small_trailing(level).first());
    layouts
}

// ---- at the boundaries ----

/// Any numbers of the boundaries, but mostly with an alignment and a kind, and later words only where they may stand.
fn with_kinds(random: &mut Random, kinds: &[u64]) -> Layout {
    let mut layout = [(); 6].map(|()| random.one_of(&BOUNDARIES));
    if !random.one_in(16) {
        layout[0] = random.one_of(&[1, 2, 1 << 29, 1 << 30, HALF, TOP]);
    }
    if !random.one_in(16) {
        layout[1] = random.one_of(kinds);
    }
    if is_fixed(layout[1]) && !random.one_in(16) {
        layout[3..].fill(0);
    }
    layout
}

pub fn at_boundaries(random: &mut Random) -> Layout {
    with_kinds(random, &[0, 1, 2, 3, 4, 5, 6, 7])
}

pub fn preceding_at_boundaries(random: &mut Random) -> Layout {
    let kinds = if random.one_in(8) { TRAILING_KINDS } else { FIXED_KINDS };
    with_kinds(random, &kinds)
}

// ---- random ones ----

/// A size and an alignment, as of a type: modulo M + 1 the size is a multiple too.
fn sized(random: &mut Random) -> (u64, u64) {
    let powers = random.one_of(&[4, 4, 6, 30]);
    let align = 1 << random.below(powers);
    let counts = random.one_of(&[2, 8, 8, 1 << 20]);
    (align * random.below(counts) & M, align)
}

/// A fixed layout, as a type has it: one of two numbers, or a struct.
pub fn fixed(random: &mut Random) -> Layout {
    let (size, align) = sized(random);
    match random.below(4) {
        0 => oracle::for_type(size, align).unwrap(),
        1 => composed(random, false),
        _ => oracle::for_unpadded_type(size, align).unwrap(),
    }
}

/// A trailing layout, as a type has it: a slice, or a struct that ends in one.
pub fn trailing(random: &mut Random) -> Layout {
    if random.one_in(3) {
        let (size, align) = sized(random);
        return oracle::for_slice(size, align).unwrap();
    }
    composed(random, true)
}

/// A struct of a few members, in one case of four without its final padding. Of 64 bits its numbers are too small for a
/// refusal; of 32 they may not be, and then another one is drawn.
fn composed(random: &mut Random, ends_in_slice: bool) -> Layout {
    loop {
        if let Ok(layout) = some_struct(random, ends_in_slice) {
            return layout;
        }
    }
}

fn some_struct(random: &mut Random, ends_in_slice: bool) -> Result<Layout, AtPlace> {
    let align = if random.one_in(4) { 1 << random.below(6) } else { 0 };
    let packing = if random.one_in(4) { 1 << random.below(4) } else { 0 };
    let mut members = Vec::new();
    for _ in 0..random.below(3) {
        members.push(fixed(random));
    }
    if ends_in_slice {
        members.push(trailing(random));
    }
    if random.one_in(4) {
        return oracle::compose(align, packing, &members);
    }
    oracle::for_repr_c_struct(align, packing, &members)
}

/// In one case of four any number for a word, or any numbers.
fn spoiled(random: &mut Random, mut layout: Layout) -> Layout {
    match random.below(16) {
        0 => {
            let kind = random.one_of(&TRAILING_KINDS);
            [power_of_two(random), kind, any(random), any(random), any(random), rounding_word(random)]
        }
        1 => [(); 6].map(|()| any(random)),
        2 | 3 => {
            layout[random.below(6) as usize] = any(random);
            layout
        }
        _ => layout,
    }
}

/// In one case of three with the alignment modifier, which no layout of the Rust has.
fn modified(random: &mut Random, mut layout: Layout) -> Layout {
    if random.one_in(3) {
        layout[1] += 4;
    }
    layout
}

pub fn draw(random: &mut Random) -> Layout {
    let layout = if random.one_in(3) { fixed(random) } else { trailing(random) };
    let layout = modified(random, layout);
    spoiled(random, layout)
}

pub fn draw_preceding(random: &mut Random) -> Layout {
    let layout = if random.one_in(16) { trailing(random) } else { fixed(random) };
    let layout = modified(random, layout);
    spoiled(random, layout)
}
