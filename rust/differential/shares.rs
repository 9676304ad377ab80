//! The padding over counts, of request 12 of document 02, called and held to the plain text of it (plain_share).
//!
//! A case is the four words of a trailing layout, how many counts there are, and the counts. An accepted list is also
//! called in other orders, which may alter nothing but the index, and each of its sizes and paddings is what the
//! functions of one count give; a refused list is refused in every order.

use crate::answer::Answer;
use crate::exports::*;
use crate::inputs::Input;
use crate::kinds::{any, rounding_word, Boundaries, Holds, Kind, BOUNDARIES};
use crate::lent::reads_numbers;
use crate::plain_share::{self, share, shares_divisor, sized, Share, Totals};
use crate::random::Random;
use crate::width::{M, TOP};
use std::collections::BTreeMap;
use std::sync::Mutex;

/// The most counts of a list.
const MOST: u64 = 300;

/// The most of a list that can be recorded.
const MOST_RECORDED: u64 = 49;

/// Fractions are tried divisor by divisor where the smaller number is not above this.
const MOST_DIVISORS: u64 = 1 << 10;

type Layout = [u64; 4];

/// The layout and the counts of a case.
fn taken(inputs: &[u64]) -> (Layout, &[u64]) {
    let &[size_base, offset, elem_size, word, _, ref counts @ ..] = inputs else { unreachable!() };
    ([size_base, offset, elem_size, word], counts)
}

// ---- the call ----

/// The export's answer, broken where a number changed that was lent or stands around.
fn called(layout: Layout, counts: &[u64]) -> Answer {
    // SAFETY: the numbers are as many as said.
    let call = |counts, len| unsafe { lukaripe_padding_of_counts(Words(layout), counts, len) };
    let (told, broken) = reads_numbers(counts, call);
    Answer { broken, ..told.into() }
}

fn answer(told: &Result<(Share, Totals), (u64, usize)>) -> Answer {
    match told {
        Ok((Share { padding, mean, greatest, index }, _)) => {
            let numbers = [0, padding.0, padding.1, mean.0, mean.1, *greatest, *index as u128];
            Answer::of(numbers.map(|number| u64::try_from(number).unwrap()))
        }
        Err((refusal, place)) => Answer::refused_at(*refusal, *place),
    }
}

/// What is expected, by document 02 alone.
pub fn expected(inputs: &[u64]) -> Answer {
    let (layout, counts) = taken(inputs);
    answer(&share(layout, counts))
}

/// What came of a list, and what it breaks besides.
pub fn run(inputs: &[u64]) -> Answer {
    let (layout, counts) = taken(inputs);
    let told = called(layout, counts);
    count_list(counts, &told);
    let broken = told.broken.or_else(|| match told.refusal {
        0 => not_of_each(layout, counts, &told).or_else(|| not_lowest(&told)),
        _ => None,
    });
    let broken = broken.or_else(|| orders(counts).iter().find_map(|order| altered(layout, order, &told)));
    Answer { broken, ..told }
}

/// What is broken where the totals are not those of the functions that take one count.
fn not_of_each(layout: Layout, counts: &[u64], told: &Answer) -> Option<&'static str> {
    let [_, padding, of, mean, over, greatest, index, ..] = told.values.map(u128::from);
    let mut totals = Totals { size: 0, padding: 0 };
    let mut most = (0, 0);
    for (at, count) in counts.iter().enumerate() {
        let size = lukaripe_size_for_elems(Words(layout), *count);
        let own = lukaripe_padding_for_elems(Words(layout), *count);
        if size.refusal != 0 || own.refusal != 0 {
            return Some("a count of an accepted list is refused by itself");
        }
        totals.size += u128::from(size.values[0]);
        totals.padding += u128::from(own.values[0]);
        if at == 0 || u128::from(own.values[0]) > most.0 {
            most = (own.values[0].into(), at as u128);
        }
    }
    if padding * totals.size != totals.padding * of || mean * counts.len() as u128 != totals.size * over {
        return Some("a fraction is not the quotient of the totals");
    }
    (most != (greatest, index)).then_some("the greatest padding or its first index is another")
}

/// What is broken where a number divides both numbers of a fraction.
fn not_lowest(told: &Answer) -> Option<&'static str> {
    let [_, padding, of, mean, over, ..] = told.values;
    for (numerator, denominator) in [(padding, of), (mean, over)] {
        let most = if numerator == 0 { denominator } else { numerator.min(denominator) };
        if most <= MOST_DIVISORS {
            count(DIVIDED, 1);
            if denominator == 0 || shares_divisor(numerator, denominator) {
                return Some("a fraction is not in lowest terms");
            }
        }
    }
    None
}

/// Other orders: back to front, sorted, and two at random, which repeat.
fn orders(counts: &[u64]) -> Vec<Vec<u64>> {
    if counts.len() < 2 {
        return Vec::new();
    }
    let mut orders = vec![counts.to_vec(); 4];
    orders[0].reverse();
    orders[1].sort_unstable();
    let mut random = Random::new(counts.iter().fold(counts.len() as u64, |mixed, count| mixed.wrapping_add(*count)));
    for order in &mut orders[2..] {
        for at in (1..order.len()).rev() {
            order.swap(at, random.below(at as u64 + 1) as usize);
        }
    }
    orders
}

/// What is broken where another order is not accepted as the list was, or alters more than the index.
fn altered(layout: Layout, order: &[u64], told: &Answer) -> Option<&'static str> {
    let other = called(layout, order);
    count(ORDERS, 1);
    if other != answer(&share(layout, order)) {
        return Some("another order has another answer than by the plain text");
    }
    let same = match told.refusal {
        0 => other.refusal == 0 && other.values[..6] == told.values[..6],
        _ => other.refusal != 0,
    };
    (!same).then_some("another order alters more than the index")
}

// ---- how often what was tried ----

static COUNTS: Mutex<BTreeMap<&str, u64>> = Mutex::new(BTreeMap::new());

const OF_LISTS: &str = "counts of the lists";
const ORDERS: &str = "other orders of a list";
const DIVIDED: &str = "fractions tried divisor by divisor";
const TOTAL_0: &str = "accepted, total size 0";
const GREAT: &str = "accepted, total size above M / 2";
const ACCEPTED: [&str; 4] =
    ["accepted, 1 count", "accepted, 2 to 9 counts", "accepted, 10 to 99 counts", "accepted, 100 to 300 counts"];
const REFUSED: [(u64, [&str; 2]); 3] = [
    (15, ["refused 15 behind 10 to 99 counts", "refused 15 behind 100 to 299 counts"]),
    (52, ["refused 52 behind 10 to 99 counts", "refused 52 behind 100 to 299 counts"]),
    (53, ["refused 53 behind 10 to 99 counts", "refused 53 behind 100 to 299 counts"]),
];
const LATE: &str = "accepted, index above 0";

fn count(what: &'static str, more: u64) {
    *COUNTS.lock().unwrap().entry(what).or_default() += more;
}

fn count_list(counts: &[u64], told: &Answer) {
    count(OF_LISTS, counts.len() as u64);
    let class = |number: u64| [1, 10, 100].iter().filter(|from| number >= **from).count();
    let [place, _, of, mean, over, _, index, ..] = told.values;
    if told.refusal != 0 {
        let late = REFUSED.iter().find(|(number, _)| *number == told.refusal && class(place) > 1);
        late.into_iter().for_each(|(_, names)| count(names[class(place) - 2], 1));
        return;
    }
    count(ACCEPTED[if counts.len() == 1 { 0 } else { class(counts.len() as u64).max(1) }], 1);
    if (mean, of) == (0, 1) {
        count(TOTAL_0, 1);
    }
    if u128::from(mean) * counts.len() as u128 / u128::from(over) > TOP.into() {
        count(GREAT, 1);
    }
    if index > 0 {
        count(LATE, 1);
    }
}

/// Each of them, and how often it was tried.
pub fn counted() -> Vec<(String, u64)> {
    let counts = COUNTS.lock().unwrap();
    let besides = [TOTAL_0, GREAT, LATE, ORDERS, DIVIDED, OF_LISTS];
    let refused = REFUSED.into_iter().flat_map(|(_, names)| names);
    let all = ACCEPTED.into_iter().chain(refused).chain(besides);
    all.map(|what| (what.to_string(), counts.get(what).copied().unwrap_or(0))).collect()
}

// ---- lists to try ----

const KIND: Kind = Kind {
    names: &[],
    holds: Holds::Words,
    good: &[8, 9, 1, 5, 3, 3, 0, 4],
    bad: &[&[8, 9, 1, 0, 3, 3, 0, 4], &[8, 9, 1, 5, 0], &[8, 10, 1, 5, 3, 2, 3, 4], &[8, 9, 1, 5, 2, 3, M]],
    small,
    boundaries: Boundaries::Drawn(|random, case| case.extend(at_boundaries(random))),
    draw: |random, case| case.extend(draw(random)),
};

/// A layout and counts. They come together, since what a count comes to hangs on the layout.
pub const INPUT: Input = Input { name: "size_base, offset, elem_size, word, counts", kind: &KIND };

fn case(layout: Layout, counts: &[u64]) -> Vec<u64> {
    [&layout[..], &[counts.len() as u64], counts].concat()
}

/// Every small layout with every list of up to three small counts.
fn small(level: u64) -> Vec<Vec<u64>> {
    let mut lists: Vec<Vec<u64>> = vec![Vec::new()];
    let mut longest = lists.clone();
    for _ in 0..3 {
        longest = longest.iter().flat_map(|list| (0..level).map(|count| [&list[..], &[count]].concat())).collect();
        lists.extend(longest.iter().cloned());
    }
    let mut cases = Vec::new();
    for (base, offset) in (0..level * level).map(|both| (both / level, both % level)) {
        for (elem_size, word) in (0..level * 2 * level).map(|both| (both / (2 * level), both % (2 * level))) {
            cases.extend(lists.iter().map(|list| case([base, offset, elem_size, word], list)));
        }
    }
    cases
}

fn at_boundaries(random: &mut Random) -> Vec<u64> {
    let layout = [(); 4].map(|()| random.one_of(&BOUNDARIES));
    let counts: Vec<u64> = (0..random.below(5)).map(|_| random.one_of(&BOUNDARIES)).collect();
    case(layout, &counts)
}

fn draw(random: &mut Random) -> Vec<u64> {
    let layout = layout(random);
    let len = match random.below(16) {
        0 => random.below(2),
        1..=8 => 1 + random.below(9),
        9..=12 => 1 + random.below(MOST_RECORDED),
        13 => 1 + random.below(MOST),
        // A place that is late is seldom met.
        _ => MOST,
    };
    if layout[3] == 0 {
        return case(layout, &(0..len.min(4)).map(|_| any(random)).collect::<Vec<u64>>());
    }
    let mut counts = counts(random, layout, len);
    if len > 0 && random.one_in(2) {
        let at = random.below(len) as usize;
        counts[at] = bad(random, layout);
    }
    case(layout, &counts)
}

/// Mostly one whose elements end below the size at every count, or at some of them, with small numbers or great ones.
fn layout(random: &mut Random) -> Layout {
    let powers = if random.one_in(8) { 30 } else { 7 };
    let align = 1u64 << random.below(powers);
    let phase = random.next() & (align - 1);
    let base = random.below(16) * align;
    let elem_size = match random.below(4) {
        0 => random.below(3),
        1 => 1 << random.below(12),
        _ => random.below(48),
    };
    let start = base + phase;
    match random.below(16) {
        // Above the size at those counts whose padding is smaller than this.
        0..=4 => [base, start + random.below(align), elem_size, align + phase],
        // No size at count 0, or at few counts.
        5 => [M - random.below(4 * align), random.log_uniform(), elem_size, align + phase],
        6 => [any(random), any(random), any(random), rounding_word(random)],
        7 => [base, start, any(random), align + phase],
        // Total size 0.
        8 => [0, 0, 0, align],
        9 if random.one_in(2) => [base, start, elem_size, 0],
        _ => [base, start - random.below(start.min(40) + 1), elem_size, align + phase],
    }
}

/// The greatest count that has a size: of two, one with a size and one without, the way between them is halved.
fn greatest_count(layout: Layout) -> u64 {
    let has = |count| plain_share::size(layout, count) <= M.into();
    if has(M) {
        return M;
    }
    let (mut with, mut without) = (0, M);
    while without - with > 1 {
        let between = with + (without - with) / 2;
        if has(between) {
            with = between;
        } else {
            without = between;
        }
    }
    with
}

/// Counts that are accepted one by one where such ones are found: small ones, all about some number, or all so great
/// that the sum of their sizes passes the greatest number at about some place.
fn counts(random: &mut Random, layout: Layout, len: u64) -> Vec<u64> {
    let elem_size = layout[2].max(1);
    let about = match random.below(4) {
        0 => Some(M / (1 + random.below(len + 1)) / elem_size),
        1 => Some(random.log_uniform() / (len + 1)),
        _ => None,
    };
    let one = |random: &mut Random| match about {
        Some(about) => about.saturating_sub(random.below(16)),
        None => random.below(100),
    };
    let mut counts = Vec::new();
    for _ in 0..len {
        let mut count = one(random);
        for _ in 0..8 {
            if sized(layout, count).is_ok() {
                break;
            }
            count = one(random);
        }
        counts.push(count);
    }
    counts
}

/// One without a size or with the end above the size, where there is one; else any.
fn bad(random: &mut Random, layout: Layout) -> u64 {
    if random.one_in(2) {
        let greatest = greatest_count(layout);
        return random.near(greatest);
    }
    for _ in 0..16 {
        let count = random.below(256);
        if sized(layout, count).is_err() {
            return count;
        }
    }
    any(random)
}
