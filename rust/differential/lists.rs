//! Records and member lists to try, as a case holds bytes.

use crate::kinds::any;
use crate::layouts;
use crate::lent::{held, RECORD};
use crate::random::Random;
use crate::width::{BITS, M, NARROW};
use oracle::Layout;

/// The most members of a list; with lent slices, so that a recorded line is no longer than its readers have room for.
const MOST: u64 = 8;
const MOST_PLACED: u64 = 7;

/// The members end to end.
fn list(members: &[Layout]) -> Vec<u64> {
    let words = members.concat();
    held(&words, words.len() * 8)
}

// ---- every small one ----

/// A record's bytes to any length below two records, and every small layout.
pub fn small_records(level: u64) -> Vec<Vec<u64>> {
    let words = [[4, 3, 8, 9, 1, 5], [1, 1, 1, 0, 0, 0]].concat();
    let mut records: Vec<Vec<u64>> = (0..=2 * RECORD).map(|len| held(&words, len)).collect();
    records.extend(layouts::small(level).into_iter().map(|layout| list(&[layout])));
    records
}

pub const MEMBERS: [Layout; 7] = [
    [1, 1, 1, 0, 0, 0],
    [2, 1, 2, 0, 0, 0],
    [4, 0, 8, 0, 0, 0],
    [4, 5, 4, 0, 0, 0],
    [8, 1, 3, 0, 0, 0],
    [1, 3, 0, 0, 1, 1],
    [4, 7, 8, 9, 2, 5],
];

/// Every list of a few of these members.
pub fn small(level: u64) -> Vec<Vec<u64>> {
    let mut lists: Vec<Vec<Layout>> = vec![Vec::new()];
    let mut longest = lists.clone();
    for _ in 0..level / 2 {
        longest = longest.iter().flat_map(|list| MEMBERS.map(|member| [&list[..], &[member]].concat())).collect();
        lists.extend(longest.iter().cloned());
    }
    lists.iter().map(|members| list(members)).collect()
}

// ---- at the boundaries ----

pub fn at_boundaries(random: &mut Random) -> Vec<u64> {
    let mut members = Vec::new();
    for _ in 0..random.below(4) {
        members.push(layouts::preceding_at_boundaries(random));
    }
    if random.one_in(2) {
        members.push(layouts::at_boundaries(random));
    }
    widen(random, &mut members);
    list(&members)
}

// ---- random ones ----

/// The layout's record, in one case of eight of another length.
pub fn record(random: &mut Random, layout: Layout) -> Vec<u64> {
    let words = [layout, layout, layout].concat();
    let len = if random.one_in(8) { random.below(3 * RECORD as u64) as usize } else { RECORD };
    held(&words, len)
}

/// A list as of a struct, mostly with something wrong at some place. Half of them are long, since a place that is late
/// is seldom met.
pub fn draw(random: &mut Random) -> Vec<u64> {
    draw_up_to(random, MOST)
}

fn draw_up_to(random: &mut Random, most: u64) -> Vec<u64> {
    if random.one_in(16) {
        return list(&[]);
    }
    let before_last = if random.one_in(2) { most - 1 } else { random.below(most) };
    let mut members: Vec<Layout> = (0..before_last).map(|_| layouts::fixed(random)).collect();
    members.push(if random.one_in(2) { layouts::fixed(random) } else { layouts::trailing(random) });
    if random.one_in(2) {
        fill(random, &mut members);
    }
    modify(random, &mut members);
    for _ in 0..random.below(3) {
        spoil(random, &mut members);
    }
    widen(random, &mut members);
    if random.one_in(32) {
        let words = members.concat();
        let len = random.below(words.len() as u64 * 8 + 1) as usize;
        return held(&words, len);
    }
    list(&members)
}

/// One of the members becomes so large that it, or what comes next, has no room. The members are as in a struct.
fn fill(random: &mut Random, members: &mut [Layout]) {
    let last = members.len() - 1;
    let at = match random.below(4) {
        0 => random.below(members.len() as u64) as usize,
        1 => last.saturating_sub(1),
        _ => last,
    };
    // Of 32 bits those before it may be refused themselves.
    let before = oracle::compose(0, 0, &members[..at]).map_or(0, |layout| layout[2]);
    let place = before.next_multiple_of(members[at][0]);
    members[at][2] = M.wrapping_sub(place).wrapping_sub(random.below(16)) & M;
}

/// In half of the cases no member has the alignment modifier, else one at some place, or any of them.
fn modify(random: &mut Random, members: &mut [Layout]) {
    match random.below(4) {
        0 => members.iter_mut().for_each(|member| member[1] += 4 * random.below(2)),
        1 => members[random.below(members.len() as u64) as usize][1] += 4,
        _ => {}
    }
}

/// Something wrong with one of the members.
pub fn spoil(random: &mut Random, members: &mut [Layout]) {
    let at = random.below(members.len() as u64) as usize;
    let [align, kind, size_base, offset, elem_size, word] = members[at];
    members[at] = match random.below(7) {
        0 => [align, 8 + random.below(8), size_base, offset, elem_size, word],
        1 => [random.one_of(&[0, 3, 6]), kind, size_base, offset, elem_size, word],
        // A fixed one with a later word.
        2 => [align, kind & !2, size_base, 0, random.below(2), 1],
        // A trailing one without its word.
        3 => [align, kind | 2, size_base, offset, elem_size, 0],
        4 => [1 << (29 + random.below(BITS - 29)), kind, size_base, offset, elem_size, word],
        // A trailing one before others.
        5 => layouts::trailing(random),
        _ => [align, kind, any(random), offset, elem_size, word],
    };
}

// ---- records of a width with fewer bits than their fields ----

/// In one case of four one of a record's numbers does not fit, where there are such. An alignment stays one, mostly.
pub fn widened(random: &mut Random, mut layout: Layout) -> Layout {
    if NARROW && random.one_in(4) {
        let at = random.below(6) as usize;
        layout[at] = match random.below(4) {
            0 if at > 0 => M + 1 + random.below(3),
            1 => random.next(),
            _ => 1 << (BITS + random.below(64 - BITS)),
        };
    }
    layout
}

/// The same of one of the members.
fn widen(random: &mut Random, members: &mut [Layout]) {
    if NARROW && !members.is_empty() {
        let at = random.below(members.len() as u64) as usize;
        members[at] = widened(random, members[at]);
    }
}

// ---- with lent slices ----

/// Before the list: the lengths of two slices of numbers, and the index of the member whose numbers are looked at.
fn lent([places_len, gaps_len]: [u64; 2], at: u64, list: &[u64]) -> Vec<u64> {
    [&[places_len, gaps_len, at], list].concat()
}

fn count(list: &[u64]) -> u64 {
    list[0] / RECORD as u64
}

/// Every small list with the right lengths, each member looked at, and with one slice that is longer or shorter.
pub fn small_lent(level: u64) -> Vec<Vec<u64>> {
    let mut cases = Vec::new();
    for list in small(level) {
        let right = count(&list);
        cases.extend((0..right.max(1)).map(|at| lent([right, right], at, &list)));
        cases.push(lent([right + 1, right], 0, &list));
        cases.extend(right.checked_sub(1).map(|less| lent([right, less], 0, &list)));
    }
    cases
}

pub fn lent_at_boundaries(random: &mut Random) -> Vec<u64> {
    let list = at_boundaries(random);
    with_lent(random, &list)
}

pub fn draw_lent(random: &mut Random) -> Vec<u64> {
    let list = draw_up_to(random, MOST_PLACED);
    with_lent(random, &list)
}

/// In one case of sixteen one of the slices, or each by itself, has another length, mostly the next.
fn with_lent(random: &mut Random, list: &[u64]) -> Vec<u64> {
    let right = count(list);
    let wrong = |random: &mut Random| match random.below(8) {
        0 => 0,
        1 => random.below(MOST_PLACED + 3),
        2..=4 => right.saturating_sub(1),
        _ => right + 1,
    };
    let lens = match random.below(48) {
        0 => [wrong(random), right],
        1 => [right, wrong(random)],
        2 => [wrong(random), wrong(random)],
        _ => [right, right],
    };
    // Not always an index of the list: it is taken modulo the count.
    let at = if random.one_in(16) { any(random) } else { random.below(right.max(1)) };
    lent(lens, at, list)
}
