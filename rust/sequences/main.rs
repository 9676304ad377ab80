//! Tries equal sizes, normal forms and conversions by them on every trailing layout of a few bits, against what the
//! words mean: sizes at every count of a period, a search through all bases, alignments and phases, and conversions by
//! both comparisons. tools/sequences builds and runs it.
//!
//! A layout of w bits has a base, an element size and a rounding word below 2^w; offset and alignment do not matter.
//! Each is tried as it is, and with its base raised by 2^64 - 2^w: its sizes then pass the greatest number where those
//! of w bits would, so that 46 and a missing size at 0 come as they would there.

#[path = "../lukaripe/src/exports.rs"]
mod exports;

use exports::*;
use std::collections::HashMap;
use std::process::ExitCode;

/// Base, word and element size.
type Small = [i64; 3];

fn parts(word: i64) -> (i64, i64) {
    let align = 1 << word.ilog2();
    (align, word - align)
}

fn up(number: i64, align: i64) -> i64 {
    (number + align - 1) / align * align
}

fn size([base, word, elem]: Small, count: i64) -> i64 {
    let (align, phase) = parts(word);
    base + up(phase + count * elem, align)
}

/// The sizes at every count of a period and the next one: from each count to the one that is 2^w later the size grows
/// by so many elements, whatever A is, so that two layouts with equal elements and these sizes have all sizes equal.
fn sizes(layout: Small, bits: u32) -> Vec<i64> {
    (0..=1 << bits).map(|count| size(layout, count)).collect()
}

/// Every layout of so many bits with elements of this size.
fn layouts(bits: u32, elem: i64) -> impl Iterator<Item = Small> {
    let end = 1 << bits;
    (0..end).flat_map(move |base| (1..end).map(move |word| [base, word, elem]))
}

/// The layout as it is, or at the top of the numbers.
fn words([base, word, elem]: Small, bits: u32, top: bool) -> Trailing {
    let raised = if top { 0u64.wrapping_sub(1 << bits) } else { 0 };
    Words([raised.wrapping_add(base as u64), 7, elem as u64, word as u64])
}

/// The first alignment and phase that give these sizes, and the base that they need, which may be any whole number.
fn searched(layout: Small, bits: u32) -> Small {
    let wanted = sizes(layout, bits);
    for power in 0..bits {
        for word in 1 << power..2 << power {
            let (align, phase) = parts(word);
            let form = [wanted[0] - up(phase, align), word, layout[2]];
            if sizes(form, bits) == wanted {
                return form;
            }
        }
    }
    unreachable!("the layout itself is among them")
}

/// How many were tried.
#[derive(Default)]
struct Tried {
    pairs: u64,
    equal: u64,
    unfound: u64,
    other_elems: u64,
    forms: u64,
    past: u64,
    conversions: u64,
    both_modes: u64,
    gained: u64,
}

fn must(holds: bool, what: &str, of: &[Small], top: bool) -> Result<(), String> {
    if holds {
        return Ok(());
    }
    Err(format!("{what}: base, word and element size {of:?}{}", if top { ", at the top" } else { "" }))
}

/// Every layout's form, and every pair with equal elements; and each layout beside the same with other elements.
fn compared(bits: u32, tried: &mut Tried) -> Result<(), String> {
    for elem in 0..1 << bits {
        let all: Vec<Small> = layouts(bits, elem).collect();
        let mut classes = HashMap::new();
        let class: Vec<usize> = all
            .iter()
            .map(|layout| {
                let next = classes.len();
                *classes.entry(sizes(*layout, bits)).or_insert(next)
            })
            .collect();
        for top in [false, true] {
            let given: Vec<Trailing> = all.iter().map(|layout| words(*layout, bits, top)).collect();
            for (at, layout) in all.iter().enumerate() {
                formed(*layout, bits, top, tried)?;
                for (other, _) in all.iter().enumerate() {
                    let told = lukaripe_sizes_agree(given[at], given[other]);
                    let expected = u64::from(class[at] == class[other]);
                    if told.refusal != 0 || told.values[0] != expected {
                        return must(false, "sizes_agree", &[*layout, all[other]], top);
                    }
                    tried.pairs += 1;
                    tried.equal += expected;
                    if expected == 1 {
                        let ported = lukaripe_has_same_size_sequence(given[at], given[other]);
                        tried.unfound += u64::from(ported.values[0] == 0);
                    }
                }
                for other in (0..1 << bits).filter(|other| *other != elem) {
                    let with_other = [layout[0], layout[1], other];
                    let told = lukaripe_sizes_agree(given[at], words(with_other, bits, top));
                    let same = sizes(*layout, bits) == sizes(with_other, bits);
                    must(told.values[0] == 0 && !same, "sizes_agree", &[*layout, with_other], top)?;
                    tried.other_elems += 1;
                }
            }
        }
    }
    Ok(())
}

fn formed(layout: Small, bits: u32, top: bool, tried: &mut Tried) -> Result<(), String> {
    let form = searched(layout, bits);
    let told = lukaripe_normal_form(words(layout, bits, top));
    tried.forms += 1;
    if top && form[0] >= 1 << bits {
        tried.past += 1;
        return must(told.refusal == 46, "normal_form, not 46", &[layout, form], top);
    }
    let Words([base, _, elem, word]) = words(form, bits, top);
    must(form[0] >= 0 && told.refusal == 0 && told.values == [base, elem, word], "normal_form", &[layout, form], top)
}

// ---- conversions ----

/// Down(b, A) + p.
fn size_offset([base, word, _]: Small) -> i64 {
    let (align, phase) = parts(word);
    base / align * align + phase
}

/// Whether the sizes of the target from a count on are those of the source, at each of a period.
fn equal_from(src: Small, dst: Small, from: i64, multiple: i64, bits: u32) -> bool {
    (0..=1 << bits).all(|count| size(dst, from + count * multiple) == size(src, count))
}

/// Whether the ported comparison finds it: the sizes at 0 are equal, and the source's elements are a multiple of the
/// larger alignment, or the alignments and the phases are equal.
fn found_from(src: Small, dst: Small, from: i64) -> bool {
    let [(align, phase), (other, other_phase)] = [src[1], dst[1]].map(parts);
    let same = align == other && phase == (other_phase + from * dst[2]) % other;
    size(dst, from) == size(src, 0) && (src[2] % align.max(other) == 0 || same)
}

/// The shift and the multiple of a conversion, by the sizes alone or by the ported comparison.
fn converts(src: Small, dst: Small, bits: u32, top: bool, full: bool) -> Option<(i64, i64)> {
    if dst[2] == 0 || src[2] < dst[2] || src[2] % dst[2] != 0 {
        return None;
    }
    let multiple = src[2] / dst[2];
    let past = if top { 1 << bits } else { i64::MAX };
    // At the top the bases are multiples of 2^w higher, which every alignment divides.
    let matches = |from: i64| {
        let equal = if full { equal_from(src, dst, from, multiple, bits) } else { found_from(src, dst, from) };
        size(src, 0) < past && size_offset(dst) + from * dst[2] < past && equal
    };
    let difference = size_offset(src) - size_offset(dst);
    if difference >= 0 && difference % dst[2] == 0 && matches(difference / dst[2]) {
        return Some((difference / dst[2], multiple));
    }
    if size(src, 0) >= past {
        return None;
    }
    let exact = (0..=size(src, 0)).take_while(|count| size(dst, *count) <= size(src, 0)).last()?;
    (size(dst, exact) == size(src, 0) && matches(exact)).then_some((exact, multiple))
}

/// Every pair of trailing layouts, with one alignment.
fn converted(bits: u32, tried: &mut Tried) -> Result<(), String> {
    let all: Vec<Small> = (0..1 << bits).flat_map(|elem| layouts(bits, elem)).collect();
    for top in [false, true] {
        let given: Vec<Layout> = all
            .iter()
            .map(|layout| {
                let Words([base, offset, elem, word]) = words(*layout, bits, top);
                Words([8, 3, base, offset, elem, word])
            })
            .collect();
        for (src, source) in all.iter().zip(&given) {
            for (dst, target) in all.iter().zip(&given) {
                let told = [lukaripe_try_compute(*source, *target), lukaripe_try_compute_full(*source, *target)];
                let expected = [false, true].map(|full| converts(*src, *dst, bits, top, full));
                for (told, expected) in told.iter().zip(expected) {
                    let given = match told.refusal {
                        0 => Some((told.values[1] as i64, told.values[2] as i64)),
                        _ => None,
                    };
                    must(given == expected, "try_compute or try_compute_full", &[*src, *dst], top)?;
                }
                let [ported, full] = expected;
                must(ported.is_none() || ported == full, "the full mode loses one", &[*src, *dst], top)?;
                tried.conversions += 1;
                tried.both_modes += u64::from(ported.is_some());
                tried.gained += u64::from(full.is_some() && ported.is_none());
            }
        }
    }
    Ok(())
}

fn run(bits: u32, convert_bits: u32) -> Result<(), String> {
    for bits in 1..=bits {
        let mut tried = Tried::default();
        compared(bits, &mut tried)?;
        let Tried { pairs, equal, unfound, other_elems, forms, past, .. } = tried;
        println!(
            "bits {bits}: {pairs} pairs with equal elements: {equal} have equal sizes, {unfound} of them not found"
        );
        println!("    by the ported comparison; {other_elems} with other elements; {forms} forms, 46 of {past}");
    }
    for bits in 1..=convert_bits {
        let mut tried = Tried::default();
        converted(bits, &mut tried)?;
        let Tried { conversions, both_modes, gained, .. } = tried;
        println!("bits {bits}: {conversions} conversions: {both_modes} in both modes, {gained} in the full mode alone");
    }
    println!("no difference");
    Ok(())
}

fn main() -> ExitCode {
    let words: Vec<u32> = std::env::args().skip(1).map(|word| word.parse().expect("a number of bits")).collect();
    let &[bits, convert_bits] = &words[..] else { panic!("two numbers of bits") };
    match run(bits, convert_bits) {
        Ok(()) => ExitCode::SUCCESS,
        Err(message) => {
            eprintln!("DIFFERENCE in {message}");
            ExitCode::FAILURE
        }
    }
}
