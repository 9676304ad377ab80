//! Short records, and lists of either form to move, as a case holds bytes.

use crate::kinds::any;
use crate::layouts;
use crate::lent::{held, AREA};
use crate::lists::MEMBERS;
use crate::moves::{Way, SEEN};
use crate::plain_short::{NEW, OLD, TO_SHORT};
use crate::random::Random;
use crate::width::NARROW;
use oracle::Layout;

/// The most records of a list, so that a recorded line is no longer than its readers have room for.
const MOST: u64 = 7;

/// The last word from which on the area can be looked at.
const LAST: usize = AREA / 8 - SEEN;

// ---- records ----

fn old_record(layout: Layout) -> Vec<u8> {
    layout.iter().flat_map(|word| word.to_le_bytes()).collect()
}

/// The record of a layout that is accepted, in the form before the move.
fn record(way: &Way, layout: Layout) -> Vec<u8> {
    let old = old_record(layout);
    if way.plain.from == OLD {
        return old;
    }
    (TO_SHORT.other)(&old).unwrap_or_else(|refusal| panic!("{layout:?} is refused by {refusal}"))
}

/// Bytes as a case holds them.
fn holds(bytes: &[u8]) -> Vec<u64> {
    let mut words: Vec<u64> = Vec::new();
    for word in bytes.chunks(8) {
        let mut whole = [0; 8];
        whole[..word.len()].copy_from_slice(word);
        words.push(u64::from_le_bytes(whole));
    }
    held(&words, bytes.len())
}

/// Of each kind, with the greatest word and the greatest alignment among them.
const LAYOUTS: [Layout; 8] = [
    [1, 0, 9, 0, 0, 0],
    [4, 1, 8, 0, 0, 0],
    [4, 2, 8, 9, 1, 5],
    [8, 3, 16, 17, 4, 0xffff_ffff],
    [1 << 63, 4, u64::MAX, 0, 0, 0],
    [16, 5, 32, 0, 0, 0],
    [2, 6, u64::MAX, u64::MAX, u64::MAX, 1],
    [1 << 29, 7, 0, 0, 0, 1 << 29],
];

/// A record with each of its bits changed in turn.
fn damaged(record: &[u8]) -> Vec<Vec<u8>> {
    let with_bit = |bit: usize| {
        let mut record = record.to_vec();
        record[bit / 8] ^= 1 << (bit % 8);
        record
    };
    (0..8 * record.len()).map(with_bit).collect()
}

/// Something is wrong with a record, or may be.
fn spoil(random: &mut Random, way: &Way, record: &mut [u8]) {
    if random.one_in(4) {
        let at = random.below(record.len() as u64) as usize;
        if random.one_in(2) {
            record[at] ^= 1 << random.below(8);
        } else {
            record[at] = random.next() as u8;
        }
    } else if way.plain.from == OLD {
        spoil_old(random, record);
    } else {
        spoil_short(random, record);
    }
}

fn put(record: &mut [u8], word: usize, number: u64) {
    record[8 * word..][..8].copy_from_slice(&number.to_le_bytes());
}

fn spoil_old(random: &mut Random, record: &mut [u8]) {
    let kind = u64::from(record[8] % 8);
    match random.below(7) {
        0 => put(record, 1, 8 + random.below(8)),
        1 => put(record, 1, any(random)),
        2 => put(record, 0, random.one_of(&[0, 3, 6, u64::MAX])),
        // A fixed one with a later word, of which one is enough.
        3 => {
            put(record, 1, kind & !2);
            put(record, 3 + random.below(3) as usize, 1 << random.below(64));
        }
        // A trailing one without its word.
        4 => {
            put(record, 1, kind | 2);
            put(record, 5, 0);
        }
        // A trailing one whose word is about as great as there is room for.
        5 => {
            put(record, 1, kind | 2);
            put(record, 5, random.near(1 << 32));
        }
        _ => {
            put(record, 1, kind | 2);
            put(record, 5, any(random));
        }
    }
}

fn spoil_short(random: &mut Random, record: &mut [u8]) {
    let byte = random.next() as u8;
    match random.below(7) {
        0 => record[29] = 8 + byte % 8,
        1 => record[29] = byte,
        // Any power.
        2 => record[28] = byte,
        3 => record[30 + random.below(2) as usize] = byte,
        4 => {
            record[29] &= !2;
            record[8 + random.below(20) as usize] |= 1 << random.below(8);
        }
        5 => {
            record[29] |= 2;
            record[24..28].fill(0);
        }
        _ => {
            record[29] |= 2;
            let word = random.near(0) as u32;
            record[24..28].copy_from_slice(&word.to_le_bytes());
        }
    }
}

// ---- one short record ----

fn short_of(layout: Layout) -> Option<Vec<u8>> {
    (TO_SHORT.other)(&old_record(layout)).ok()
}

/// Two short records to any length, one of each kind with each bit changed, and every small layout's.
pub fn small_records(level: u64) -> Vec<Vec<u64>> {
    let two = [short_of(LAYOUTS[3]).unwrap(), short_of(LAYOUTS[1]).unwrap()].concat();
    let mut records: Vec<Vec<u64>> = (0..=two.len()).map(|len| holds(&two[..len])).collect();
    for layout in LAYOUTS {
        records.extend(damaged(&short_of(layout).unwrap()).iter().map(|record| holds(record)));
    }
    records.extend(layouts::small(level).into_iter().filter_map(short_of).map(|record| holds(&record)));
    records
}

pub fn record_at_boundaries(random: &mut Random) -> Vec<u64> {
    let record = bytes_at_boundaries(random);
    cut_one(random, &record)
}

/// Words of the boundaries, and a last one of such fields.
fn bytes_at_boundaries(random: &mut Random) -> Vec<u8> {
    let [_, kind, size_base, offset, elem_size, _] = layouts::at_boundaries(random);
    let word = random.one_of(&[0, 1, 2, 3, (1 << 31) - 1, 1 << 31, (1 << 32) - 2, (1 << 32) - 1]);
    let power = random.one_of(&[0, 1, 2, 29, 30, 31, 32, 62, 63, 64, 65, 127, 128, 255]);
    let kind = if random.one_in(16) { random.one_of(&[8, 9, 127, 128, 255]) } else { kind % 8 };
    let spare = if random.one_in(16) { random.one_of(&[1, 255, 256, 0x8000, 0xffff]) } else { 0 };
    let fixed = kind & 2 == 0 && !random.one_in(16);
    let [offset, elem_size, word] = [offset, elem_size, word].map(|later| if fixed { 0 } else { later });
    let last = word + (power << 32) + (kind << 40) + (spare << 48);
    [size_base, offset, elem_size, last].iter().flat_map(|word| word.to_le_bytes()).collect()
}

pub fn draw_record(random: &mut Random) -> Vec<u64> {
    let mut record = short_of(layout(random)).unwrap();
    widen(random, &mut record);
    if random.one_in(2) {
        spoil(random, &crate::moves::FROM, &mut record);
    }
    cut_one(random, &record)
}

/// In one case of four a number that does not fit, where there are such.
fn widen(random: &mut Random, record: &mut [u8]) {
    if NARROW && random.one_in(4) {
        let words = if record[29] & 2 == 0 { 1 } else { 3 };
        put(record, random.below(words) as usize, random.next());
    }
}

/// In one case of eight of another length.
fn cut_one(random: &mut Random, record: &[u8]) -> Vec<u64> {
    let len = if random.one_in(8) { random.below(3 * NEW as u64) as usize } else { NEW };
    holds(&record.repeat(3)[..len])
}

/// A layout that is accepted, with a word of up to 32 bits and any alignment.
fn layout(random: &mut Random) -> Layout {
    let mut layout = if random.one_in(2) { layouts::fixed(random) } else { layouts::trailing(random) };
    if random.one_in(4) {
        layout[0] = 1 << random.below(64);
    }
    if random.one_in(3) {
        layout[1] += 4;
    }
    if random.one_in(4) {
        layout[2] = any(random);
    }
    if layout[1] & 2 != 0 && random.one_in(4) {
        [layout[3], layout[4]] = [any(random), any(random)];
        layout[5] = 1 + random.below(0xffff_ffff);
    }
    layout
}

// ---- lists to move ----

/// What comes before the records: the length of the output, and from which word on it is looked at.
fn lent(out_len: usize, from: usize, records: &[u8]) -> Vec<u64> {
    [vec![out_len.min(AREA) as u64, from.min(LAST) as u64], holds(records)].concat()
}

/// The bytes that the output of a list must have.
fn needed(way: &Way, records: &[u8]) -> usize {
    records.len() / way.plain.from * way.plain.to
}

/// Every list of a few members with output of the length that it takes, one byte less and one more; a list cut at each
/// length; and one of two records with each bit of each of them changed.
pub fn small(way: &Way, level: u64) -> Vec<Vec<u64>> {
    let mut lists: Vec<Vec<u8>> = vec![Vec::new()];
    let mut longest = lists.clone();
    for _ in 0..level / 2 {
        let with_each = |list: &Vec<u8>| MEMBERS.map(|member| [&list[..], &record(way, member)].concat());
        longest = longest.iter().flat_map(with_each).collect();
        lists.extend(longest.iter().cloned());
    }
    let mut cases = Vec::new();
    for list in &lists {
        let needed = needed(way, list);
        cases.extend([needed.saturating_sub(1), needed, needed + 1, AREA].map(|len| lent(len, 0, list)));
    }
    let [one, other] = [record(way, LAYOUTS[3]), record(way, LAYOUTS[1])];
    let both = [&one[..], &other].concat();
    cases.extend((0..=both.len()).map(|len| lent(needed(way, &both[..len]), 0, &both[..len])));
    let out = needed(way, &both);
    for layout in LAYOUTS {
        for record in damaged(&record(way, layout)) {
            cases.push(lent(out, 0, &[&record[..], &other].concat()));
            cases.push(lent(out, way.plain.to / 8, &[&one[..], &record].concat()));
        }
    }
    cases
}

pub fn at_boundaries(random: &mut Random, way: &Way) -> Vec<u64> {
    let mut records = Vec::new();
    for _ in 0..random.below(4) {
        let record = match way.plain.from {
            OLD => old_record(layouts::at_boundaries(random)),
            _ => bytes_at_boundaries(random),
        };
        records.extend(record);
    }
    with_output(random, way, &records)
}

/// A list of good records, mostly with something wrong at some place. Half of them are long, since a place that is late
/// is seldom met.
pub fn draw(random: &mut Random, way: &Way) -> Vec<u64> {
    let count = match random.below(16) {
        0 => 0,
        1..=8 => MOST,
        _ => 1 + random.below(MOST),
    };
    let mut records: Vec<Vec<u8>> = (0..count).map(|_| record(way, layout(random))).collect();
    if count > 0 {
        for _ in 0..random.below(3) {
            let at = random.below(count) as usize;
            spoil(random, way, &mut records[at]);
        }
    }
    let mut records = records.concat();
    if random.one_in(16) {
        let len = random.below(records.len() as u64 + 1) as usize;
        records.truncate(len);
    }
    with_output(random, way, &records)
}

/// Output about as long as it must be, looked at from its front, about where the moved records end, where one of them
/// starts, or anywhere.
fn with_output(random: &mut Random, way: &Way, records: &[u8]) -> Vec<u64> {
    let needed = needed(way, records);
    let len = match random.below(16) {
        0 => needed.saturating_sub(1),
        1 => needed + 1,
        2 => AREA,
        3 => random.below(AREA as u64 + 1) as usize,
        4 => random.below(needed as u64 + 1) as usize,
        5 => needed.saturating_sub(way.plain.to),
        6 => needed + way.plain.to,
        _ => needed,
    };
    let from = match random.below(4) {
        0 => 0,
        1 => (needed / 8).saturating_sub(random.below(SEEN as u64) as usize),
        2 => random.below(MOST) as usize * way.plain.to / 8,
        _ => random.below(LAST as u64 + 1) as usize,
    };
    lent(len, from, records)
}
