//! Sizes at counts, and which sizes a layout has where it has not the one that is asked for.

use super::library::{CastType, Layout, NoSize, SizeInfo, Trailing};
use super::Word;
use crate::words::most;

/// The size at a count; of a fixed layout its own.
pub fn size_at(layout: Layout, count: Word) -> Result<Word, NoSize> {
    match layout.size_info {
        SizeInfo::Sized { size } => Ok(size),
        SizeInfo::SliceDst(run) => run.size_for_elems(count),
    }
}

/// The least size, in words.
pub fn least(layout: Layout) -> String {
    of_none("the least size is", layout)
}

/// The sizes next to one that the layout has not, in words.
pub fn nearest(layout: Layout, size: Word) -> String {
    if layout.trailing().is_none_or(|run| run.elem_size == 0) {
        return of_none("the only size is", layout);
    }
    // The greatest size that fits: every alignment takes the address 0.
    let Ok(below) = layout.validate_cast_and_convert_metadata(0, size, CastType::Prefix) else { return least(layout) };
    match below.count.checked_add(1).and_then(|count| size_at(layout, count).ok()) {
        Some(above) => format!("the nearest sizes are {} and {above}", below.split),
        None => format!("the greatest size is {}", below.split),
    }
}

/// The size without elements, in words, or why there is none.
fn of_none(what: &str, layout: Layout) -> String {
    match size_at(layout, 0) {
        Ok(size) => format!("{what} {size}"),
        Err(NoSize { refusal, .. }) => format!("{refusal} (refusal {})", refusal.number()),
    }
}

/// As many counts are tried where a difference is looked for.
const TRIED: Word = 1 << 16;

/// Where two runs differ: the counts, and the sizes in words.
pub struct Difference {
    pub counts: [Word; 2],
    pub sizes: [String; 2],
}

/// The first count at which two runs are found to differ, where the other has the count that `converted` gives.
pub fn first_difference(
    one: Trailing,
    other: Trailing,
    converted: impl Fn(Word) -> Option<Word>,
) -> Option<Difference> {
    let said = |size: Result<Word, NoSize>| match size {
        Ok(size) => size.to_string(),
        Err(_) => format!("more than {}", most::<Word>()),
    };
    for count in 0..TRIED {
        let counts = [count, converted(count)?];
        match [one.size_for_elems(counts[0]), other.size_for_elems(counts[1])] {
            // What is above the greatest number is not compared.
            [Err(_), Err(_)] => return None,
            sizes if sizes[0].ok() != sizes[1].ok() => return Some(Difference { counts, sizes: sizes.map(said) }),
            _ => {}
        }
    }
    None
}
