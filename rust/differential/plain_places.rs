//! Where the members of a struct stand, of request 1 of document 02, by its text: over numbers that do not overflow,
//! member by member. It shares nothing with either side.

use crate::answer::Answer;
use crate::width::Word;

/// A member's record.
type Record = [u64; 6];

/// Of each member where it starts and the gap before it, where all are accepted: the smallest multiple of the smaller
/// of its own alignment and the packing that is not below the end before it.
pub fn placed(repr_packed: u64, members: &[Record]) -> Vec<(u128, u128)> {
    let mut end = 0;
    let mut placed = Vec::new();
    for member in members {
        let place = smallest_multiple(placing_align(repr_packed, member), end);
        placed.push((place, place - end));
        // A trailing one is the last, and nothing is asked of its end.
        end = place + u128::from(member[2]);
    }
    placed
}

/// What is broken of an answer that was given with these numbers.
pub fn broken(
    asked: [u64; 2],
    members: &[Record],
    answer: &Answer,
    places: &[Word],
    gaps: &[Word],
) -> Option<&'static str> {
    let [repr_align, repr_packed] = asked;
    let placed = placed(repr_packed, members);
    if !places.iter().map(|place| u128::from(*place)).eq(placed.iter().map(|(place, _)| *place)) {
        return Some("a place is not the smallest that is aligned");
    }
    if !gaps.iter().map(|gap| u128::from(*gap)).eq(placed.iter().map(|(_, gap)| *gap)) {
        return Some("a gap is not what stands between two members");
    }
    // Closing padding is the least that takes the end to a multiple of the greatest alignment.
    let [_, _, kind, size, ..] = answer.values;
    if kind & 2 == 0 {
        let aligns = members.iter().map(|member| placing_align(repr_packed, member));
        let align = aligns.fold(u128::from(repr_align.max(1)), u128::max);
        let sizes = members.iter().map(|member| u128::from(member[2]));
        let end: u128 = gaps.iter().map(|gap| u128::from(*gap)).chain(sizes).sum();
        let closing = smallest_multiple(align, end) - end;
        if end + closing != size.into() {
            return Some("gaps, member sizes and closing padding do not add up to the size");
        }
    }
    None
}

/// A packing of 0 was not asked for.
fn placing_align(repr_packed: u64, member: &Record) -> u128 {
    let align = if repr_packed == 0 { member[0] } else { member[0].min(repr_packed) };
    align.into()
}

fn smallest_multiple(of: u128, from: u128) -> u128 {
    let over = from % of;
    if over == 0 {
        from
    } else {
        from - over + of
    }
}
