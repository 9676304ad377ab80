//! The table of refusals, of document 01 and as document 02 changed it, for the inputs that the Rust is not handed. It
//! shares nothing with either side.

use crate::answer::Answer;
use crate::width::M;

/// A cause: its number, and whether it applies.
pub type Cause = (u64, bool);

/// The first cause that applies, of those in the order tested. None: the Rust answers.
pub fn first(causes: &[Cause]) -> Option<Answer> {
    causes.iter().find(|(_, applies)| *applies).map(|(number, _)| Answer::refused(*number))
}

/// An alignment is 0 or no power of two.
pub fn bad_align(align: u64) -> bool {
    align.count_ones() != 1
}

/// Of a kind 1 is the mark, 2 a run of elements at the end, and 4 the alignment modifier.
pub fn is_fixed(kind: u64) -> bool {
    kind & 2 == 0
}

pub fn has_modifier(kind: u64) -> bool {
    kind & 4 != 0
}

/// The causes of a layout that is handed over, which is tested as its record is.
pub fn layout([align, kind, _, offset, elem_size, word]: [u64; 6]) -> [Cause; 4] {
    let fixed = is_fixed(kind);
    [
        (21, kind > 7),
        (1, bad_align(align)),
        (22, fixed && (offset, elem_size, word) != (0, 0, 0)),
        (2, !fixed && word == 0),
    ]
}

/// The causes of a record, whose own tests are 64 bits wide at any width: "43 when a number in a record .. does not fit
/// the chosen width, after the record's own tests".
pub fn record(words: [u64; 6]) -> [Cause; 5] {
    let [kind, align, later, word] = layout(words);
    [kind, align, later, word, (43, words.iter().any(|number| *number > M))]
}

/// The causes of two layouts, the first one's first.
pub fn two_layouts(one: [u64; 6], other: [u64; 6]) -> Option<Answer> {
    first(&layout(one)).or_else(|| first(&layout(other)))
}

/// The causes of a size and an alignment that stand for a type.
pub fn sized(size: u64, align: u64) -> [Cause; 2] {
    // The second is looked at only where the first does not apply.
    [(1, bad_align(align)), (4, size % align.max(1) != 0)]
}
