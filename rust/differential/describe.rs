//! Descriptions of types, of requests 4 and 8 of document 02, called and held to the plain text of them
//! (plain_describe).
//!
//! A case holds the bytes as `lent` does. They are whole descriptions, drawn part by part, mostly damaged then; chains
//! of parts about as deep as may be; and every short run of the bytes that matter.

use crate::answer::Answer;
use crate::exports::*;
use crate::inputs::Input;
use crate::kinds::{Boundaries, Holds, Kind};
use crate::lent::{bytes, held, reads};
use crate::plain_describe;
use crate::random::Random;
use crate::width::NARROW;
use std::collections::BTreeMap;
use std::sync::Mutex;

const ARRAY: u8 = 16;
const STRUCT: u8 = 17;
const SLICE: u8 = 18;
const LONG_STRUCT: u8 = 19;

/// The greatest member count of one byte, and of two.
pub const MOST_OF_BYTE: u64 = 255;
pub const MOST_MEMBERS: u64 = 65_535;

/// The greatest count of an array.
const MOST_COUNT: u32 = u32::MAX;

/// The programs that replay recorded lines have room for so many bytes, and a recorded line for a few more.
const MOST_REPLAYED: usize = 384;
const MOST_RECORDED: usize = 424;

// ---- the call ----

/// What came of a description, and the same of an array and a slice of it.
pub fn run(inputs: &[u64]) -> Answer {
    let description = bytes(inputs);
    let answer = called(&description);
    count(&description, &answer);
    Answer { broken: answer.broken.or_else(|| not_by_hand(&description, &answer)), ..answer }
}

fn called(description: &[u8]) -> Answer {
    // SAFETY: the bytes are as many as said.
    reads(description, |at, len| unsafe { lukaripe_read(at, len) }.into())
}

/// What document 02 says of it.
pub fn expected(inputs: &[u64]) -> Answer {
    plain_describe::read(&bytes(inputs)).into()
}

/// What is broken where a struct of one such member, or a slice of it, is not the one that the exports make by hand.
fn not_by_hand(description: &[u8], answer: &Answer) -> Option<&'static str> {
    let layout: [u64; 6] = answer.values[1..7].try_into().unwrap();
    let member: Vec<u8> = layout.iter().flat_map(|word| word.to_le_bytes()).collect();
    if answer.refusal != 0 || depth(description) == MOST_OPEN {
        return None;
    }
    // SAFETY: the bytes are as many as said.
    let composed = unsafe { lukaripe_for_repr_c_struct(0, 0, member.as_ptr(), member.len()) };
    let Told { refusal, values: [align, kind, size_base, offset, elem_size, word] } =
        lukaripe_for_slice_of(Words(layout));
    let slice = Told { refusal, values: [0, align, kind, size_base, offset, elem_size, word] };
    let composed = Answer::from(composed);
    let around: [(&[u8], Answer); 3] =
        [(&[STRUCT, 0, 0, 1], composed), (&[LONG_STRUCT, 0, 0, 1, 0], composed), (&[SLICE], slice.into())];
    for (head, by_hand) in around {
        if called(&[head, description].concat()) != by_hand {
            return Some("a struct or slice around it is not the one that is made by hand");
        }
    }
    None
}

/// The most parts that may be open.
const MOST_OPEN: usize = 16;

/// How many parts are open at once at most, of bytes that are a description.
fn depth(description: &[u8]) -> usize {
    fn part(bytes: &[u8], at: &mut usize) -> usize {
        let tag = bytes[*at];
        *at += 1;
        match tag {
            ARRAY => {
                *at += 4;
                1 + part(bytes, at)
            }
            STRUCT | LONG_STRUCT => {
                let members = member_count(&bytes[*at - 1..]);
                *at += if tag == STRUCT { 3 } else { 4 };
                1 + (0..members).map(|_| part(bytes, at)).max().unwrap_or(0)
            }
            SLICE => 1 + part(bytes, at),
            _ => 0,
        }
    }
    part(description, &mut 0)
}

/// Of the struct that a description begins with.
fn member_count(description: &[u8]) -> u64 {
    match description[0] {
        STRUCT => description[3].into(),
        _ => u16::from_le_bytes([description[3], description[4]]).into(),
    }
}

// ---- how often what was tried ----

static COUNTS: Mutex<BTreeMap<&str, u64>> = Mutex::new(BTreeMap::new());

const KINDS: [&str; 8] = [
    "accepted, fixed",
    "accepted, fixed with the mark",
    "accepted, trailing",
    "accepted, trailing with the mark",
    "accepted, fixed, modifier",
    "accepted, fixed with the mark, modifier",
    "accepted, trailing, modifier",
    "accepted, trailing with the mark, modifier",
];

const DEPTHS: [&str; 4] = [
    "accepted, a scalar alone",
    "accepted, 1 to 7 parts open at once",
    "accepted, 8 to 15 parts open at once",
    "accepted, 16 parts open at once",
];

const MANY: [&str; 4] = [
    "accepted, a struct of 255 members",
    "accepted, a struct of 256 members",
    "accepted, a struct of 257 to 65,534 members",
    "accepted, a struct of 65,535 members",
];
const LONG: &str = "of more than 384 bytes";
const BYTES: &str = "bytes of the descriptions";

fn count(description: &[u8], answer: &Answer) {
    let mut counts = COUNTS.lock().unwrap();
    let mut add = |what, count| *counts.entry(what).or_default() += count;
    add(BYTES, description.len() as u64);
    add(LONG, u64::from(description.len() > MOST_REPLAYED));
    if answer.refusal != 0 {
        return;
    }
    add(KINDS[answer.values[2] as usize], 1);
    add(DEPTHS[[0, 1, 8, 16].partition_point(|least| *least <= depth(description)) - 1], 1);
    if matches!(description[0], STRUCT | LONG_STRUCT) {
        match member_count(description) {
            MOST_OF_BYTE => add(MANY[0], 1),
            256 => add(MANY[1], 1),
            MOST_MEMBERS => add(MANY[3], 1),
            257.. => add(MANY[2], 1),
            _ => {}
        }
    }
}

/// What was tried, and how often.
pub fn counted() -> Vec<(String, u64)> {
    let counts = COUNTS.lock().unwrap();
    let all = KINDS.iter().chain(&DEPTHS).chain(&MANY).chain(&[LONG, BYTES]);
    all.map(|what| (what.to_string(), counts.get(what).copied().unwrap_or(0))).collect()
}

// ---- descriptions to try ----

/// Bytes that mean something: codes and what is next to them, tags, powers of alignments about 2^29, 2^63 and, where
/// that is less, the greatest that fits.
pub const BYTES_THAT_MATTER: [u8; 20] =
    [0, 1, 2, 3, 4, 8, 9, 15, 16, 17, 18, 19, 20, 30, 31, 32, if NARROW { 33 } else { 63 }, 64, 65, 255];

const DESCRIPTION: Kind = Kind {
    names: &[],
    holds: Holds::Bytes,
    good: &[4, 0x0000_0011],
    bad: &[],
    small,
    boundaries: Boundaries::Drawn(|random, case| case.extend(holding(&at_boundaries(random)))),
    draw: |random, case| case.extend(holding(&draw(random))),
};

pub const INPUT: Input = Input { name: "description", kind: &DESCRIPTION };

/// The bytes as a case holds them.
pub fn holding(description: &[u8]) -> Vec<u64> {
    let mut len = description.len();
    if (MOST_REPLAYED + 1..=MOST_RECORDED).contains(&len) {
        len = MOST_REPLAYED;
    }
    let mut padded = description[..len].to_vec();
    padded.resize(len.next_multiple_of(8), 0);
    let words: Vec<u64> = padded.chunks_exact(8).map(|word| u64::from_le_bytes(word.try_into().unwrap())).collect();
    held(&words, len)
}

/// Every run of up to so many bytes that matter; longer ones only where the reading goes on to their end.
pub fn small(level: u64) -> Vec<Vec<u64>> {
    let mut all = vec![Vec::new()];
    let mut longest = all.clone();
    for len in 0..level {
        let goes_on = |run: &&Vec<u8>| len < 3 || plain_describe::read(run) == Err((33, run.len()));
        let next = |run: &Vec<u8>| BYTES_THAT_MATTER.map(|byte| [&run[..], &[byte]].concat());
        longest = longest.iter().filter(goes_on).flat_map(next).collect();
        all.extend(longest.iter().cloned());
    }
    all.iter().map(|run| holding(run)).collect()
}

/// A description as a template has it, in half of the cases damaged.
pub fn draw(random: &mut Random) -> Vec<u8> {
    if random.one_in(16) {
        return refused(random);
    }
    let mut out = Vec::new();
    match random.below(16) {
        0..=7 => {
            let depth = 1 + random.below(5);
            part(random, depth, true, &mut out)
        }
        8..=10 => deep(random, &mut out),
        11..=13 => huge(random, &mut out),
        14 => wide(random, &mut out),
        _ => out.extend((0..random.below(12)).map(|_| byte(random))),
    }
    if random.one_in(2) {
        out = inside(random, out);
    }
    for _ in 0..random.below(3) {
        damage(random, &mut out);
    }
    out
}

/// Powers and counts about the greatest.
pub fn at_boundaries(random: &mut Random) -> Vec<u8> {
    let mut out = Vec::new();
    huge(random, &mut out);
    for _ in 0..random.below(3) {
        let head = match random.below(3) {
            0 => array_head(count_of_array(random)),
            1 => {
                let powers = [0, 1, 2, 29, 30, 31, 32, 33, 63, 64];
                let modifiers = [random.one_of(&powers) as u8, random.one_of(&powers) as u8];
                struct_head(random, modifiers, 1)
            }
            _ => vec![SLICE],
        };
        out = [head, out].concat();
    }
    out
}

fn byte(random: &mut Random) -> u8 {
    if random.one_in(4) {
        return random.next() as u8;
    }
    BYTES_THAT_MATTER[random.below(BYTES_THAT_MATTER.len() as u64) as usize]
}

/// 0 in most cases, for none, else 1 + a power: small, or about 2^29, or any.
fn power(random: &mut Random) -> u8 {
    let power = match random.below(32) {
        0 => random.below(65),
        1 => 29 + random.below(4),
        2..=9 => 1 + random.below(6),
        _ => 0,
    };
    power as u8
}

/// Of 32 bits a great one leaves no room for other members, and is drawn less often.
fn count_of_array(random: &mut Random) -> u32 {
    match random.below(if NARROW { 512 } else { 8 }) {
        0 => random.next() as u32,
        1 => MOST_COUNT - random.below(3) as u32,
        2 => 1 << random.below(32),
        _ => random.below(6) as u32,
    }
}

fn array_head(count: u32) -> Vec<u8> {
    [&[ARRAY][..], &count.to_le_bytes()].concat()
}

/// Alignment and packing.
fn modifiers(random: &mut Random) -> [u8; 2] {
    [power(random), power(random)]
}

/// With a count of one byte or of two, where either has room.
pub fn struct_head(random: &mut Random, [align, packing]: [u8; 2], members: u64) -> Vec<u8> {
    let [low, high] = (members as u16).to_le_bytes();
    if members > MOST_OF_BYTE || random.one_in(3) {
        return vec![LONG_STRUCT, align, packing, low, high];
    }
    vec![STRUCT, align, packing, low]
}

/// The same, with any alignment and packing.
fn any_struct_head(random: &mut Random, members: u64) -> Vec<u8> {
    let modifiers = modifiers(random);
    struct_head(random, modifiers, members)
}

/// A part with so many more open in it at most. One that ends in elements stands mostly where it may.
fn part(random: &mut Random, depth: u64, last: bool, out: &mut Vec<u8>) {
    let form = if depth == 0 { 0 } else { random.below(8) };
    match form {
        3 | 4 => {
            out.extend(array_head(count_of_array(random)));
            let last = random.one_in(32);
            part(random, depth - 1, last, out);
        }
        5 | 6 => {
            let members = random.below(5);
            out.extend(any_struct_head(random, members));
            for left in (0..members).rev() {
                let last = (last && left == 0) || random.one_in(16);
                part(random, depth - 1, last, out);
            }
        }
        7 if last => {
            out.push(SLICE);
            let last = random.one_in(32);
            part(random, depth - 1, last, out);
        }
        _ => out.push(random.below(9) as u8),
    }
}

/// A chain of parts, each in the one before, about as many as may be open.
fn deep(random: &mut Random, out: &mut Vec<u8>) {
    // One of sixteen is of slices alone, but for a few.
    let forms = if random.one_in(16) { 64 } else { 8 };
    for _ in 0..13 + random.below(5) {
        match random.below(forms) {
            0 | 8.. => out.push(SLICE),
            1..=3 => {
                let count = if random.one_in(2) { 1 } else { random.below(3) };
                out.extend(array_head(count as u32));
            }
            _ => out.extend(any_struct_head(random, 1)),
        }
    }
    if random.one_in(8) {
        out.push(SLICE);
    }
    out.push(random.below(9) as u8);
}

/// Arrays of arrays, so many that a sum or a rounding passes the greatest number, or nearly: with the counts 2^32 - 1
/// the first member has 2^64 - 2^33 + 1 bytes, and the two behind it are one byte short of the rest. Of 32 bits one
/// such array is all there is room for.
fn huge(random: &mut Random, out: &mut Vec<u8>) {
    let members = random.below(5);
    if members > 0 {
        out.extend(any_struct_head(random, members));
    }
    for member in 0..members.max(1) {
        if member < 3 && !(NARROW && random.one_in(2)) {
            let count = if random.one_in(8) { count_of_array(random) } else { MOST_COUNT };
            out.extend(array_head(count));
        }
        if member == 0 && !NARROW {
            let count = if random.one_in(8) { count_of_array(random) } else { MOST_COUNT };
            out.extend(array_head(count));
        }
        match random.below(8) {
            0 => part(random, 2, true, out),
            1 => out.extend([ARRAY, 0, 0, 0, 0, random.below(9) as u8]),
            2 => out.extend([SLICE, random.below(9) as u8]),
            _ => out.push(0),
        }
    }
}

/// A struct that is not composed, inside a few slices: 6, 7, 8 and 9 seldom come at each place else.
fn refused(random: &mut Random) -> Vec<u8> {
    let array = array_head(MOST_COUNT);
    let huge = if NARROW { [&array[..], &[0]].concat() } else { [&array[..], &array, &[0]].concat() };
    // Its members end at the greatest number.
    let (greatest, of_greatest) =
        if NARROW { (huge.clone(), 1) } else { ([&huge[..], &array, &[0], &array, &[0]].concat(), 3) };
    let (modifiers, members, rest) = match random.below(4) {
        0 => ([31, 0], 1, vec![0]),
        1 => ([0, 0], 2, vec![SLICE, 0, 0]),
        2 => ([2, 0], of_greatest, greatest),
        _ => ([0, 0], 2, huge.repeat(2)),
    };
    [vec![SLICE; random.below(9) as usize], struct_head(random, modifiers, members), rest].concat()
}

/// A struct of many members, seldom of as many scalars as there can be.
fn wide(random: &mut Random, out: &mut Vec<u8>) {
    let members = match random.below(8) {
        0..=2 => MOST_OF_BYTE,
        3 => random.below(256),
        4 => 256,
        5 => 257 + random.below(300),
        6 if random.one_in(64) => MOST_MEMBERS,
        _ => 300,
    };
    out.extend(any_struct_head(random, members));
    let scalars = random.one_of(&[1, 4, 16]);
    for _ in 0..members {
        let depth = u64::from(members < MOST_MEMBERS && random.one_in(scalars));
        part(random, depth, false, out);
    }
}

/// The same inside a few other parts.
fn inside(random: &mut Random, description: Vec<u8>) -> Vec<u8> {
    let mut out = Vec::new();
    for _ in 0..1 + random.below(8) {
        match random.below(8) {
            0 => out.extend(array_head(count_of_array(random))),
            1 | 2 => out.extend(any_struct_head(random, 1)),
            3 => {
                out.extend(any_struct_head(random, 2));
                out.push(random.below(9) as u8);
            }
            _ => out.push(SLICE),
        }
    }
    [out, description].concat()
}

/// A byte changed, left out or put in, the end cut off, or bytes behind it.
fn damage(random: &mut Random, description: &mut Vec<u8>) {
    let at = random.below(description.len() as u64 + 1) as usize;
    match random.below(6) {
        0 | 1 if at < description.len() => description[at] = byte(random),
        2 if at < description.len() => {
            description.remove(at);
        }
        3 => description.insert(at, byte(random)),
        4 => description.truncate(at),
        _ => description.extend((0..1 + random.below(3)).map(|_| byte(random))),
    }
}
