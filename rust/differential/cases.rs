//! All short member lists, of request 10 of document 02: the export, held to the plain text of it.
//!
//! The output is lent as the front of an area, whose other bytes stand behind it. A case is the length of the lists,
//! the length that is lent and the word of the area from which on it is looked at. The answer has ten words of the area
//! from there on, as they are afterwards, on a refusal too; the whole area is compared beside.

use crate::answer::Answer;
use crate::exports::*;
use crate::lent::{fills_area, OTHER};
use crate::random::Random;

/// The bytes of the area: all cases of up to six members, and a little more.
pub const AREA: usize = 218_440 + 56;
const SEEN: usize = 10;
const LAST: u64 = (AREA / 8 - SEEN) as u64;

/// "Every list of up to a chosen length of u8, u16, u32 and u64, each under packing none, 1, 2, 4 and 8. Shorter lists
/// come first, then by code from the left, then by packing in that order. Each case is written as one 8-byte record:
/// length, packing (0 for none), six codes, unused ones 255."
fn plain(longest: u64) -> Vec<u8> {
    let mut all = Vec::new();
    for length in 0..=longest as u32 {
        // A list of codes is a number to the base 4, whose first digit is its first code.
        for list in 0..4u32.pow(length) {
            for packing in [0, 1, 2, 4, 8] {
                all.push(length as u8);
                all.push(packing);
                for slot in 0..6 {
                    all.push(if slot < length { (list / 4u32.pow(length - 1 - slot) % 4) as u8 } else { 255 });
                }
            }
        }
    }
    all
}

/// "47 when the length is above 6, 48 when the buffer cannot hold all of them, and then nothing is written."
fn written(longest: u64, len: u64) -> Result<Vec<u8>, u64> {
    if longest > 6 {
        return Err(47);
    }
    let all = plain(longest);
    if (all.len() as u64) > len {
        return Err(48);
    }
    Ok(all)
}

fn area_after(longest: u64, len: u64) -> (u64, u64, Vec<u8>) {
    let mut area = vec![OTHER; AREA];
    match written(longest, len) {
        Ok(all) => {
            area[..all.len()].copy_from_slice(&all);
            (0, all.len() as u64, area)
        }
        Err(refusal) => (refusal, 0, area),
    }
}

fn answer(refusal: u64, count: u64, area: &[u8], from: u64) -> Answer {
    let mut words = [0; SEEN + 1];
    words[0] = count;
    for (word, bytes) in words[1..].iter_mut().zip(area[8 * from as usize..].chunks_exact(8)) {
        *word = u64::from_le_bytes(bytes.try_into().unwrap());
    }
    Answer::written(refusal, words)
}

pub fn expected(inputs: &[u64]) -> Answer {
    let (refusal, count, area) = area_after(inputs[0], inputs[1]);
    answer(refusal, count, &area, inputs[2])
}

pub fn run(inputs: &[u64]) -> Answer {
    let (told, area, strays) = fills_area(AREA, inputs[1] as usize, |out, len| {
        // SAFETY: the bytes are as many as said.
        unsafe { lukaripe_write_cases(inputs[0], out, len) }
    });
    let other = area_after(inputs[0], inputs[1]).2 != area;
    let broken = strays.or(other.then_some("the output is not that of the document"));
    Answer { broken, ..answer(told.refusal, told.values[0], &area, inputs[2]) }
}

// ---- cases ----

/// The bytes of all lists of up to so many members.
fn needed(longest: u64) -> u64 {
    40 * (0..=longest.min(6)).map(|length| 4u64.pow(length as u32)).sum::<u64>()
}

/// Every length of lists, with outputs about the one that is needed.
pub fn small(_: u64) -> Vec<Vec<u64>> {
    let mut all = Vec::new();
    for longest in 0..=7 {
        let needed = needed(longest);
        for len in [0, 8, 39, 40, needed - 8, needed - 1, needed, needed + 1, needed + 8, AREA as u64] {
            for from in [0, (needed / 8).saturating_sub(5).min(LAST), LAST] {
                all.push(vec![longest, len, from]);
            }
        }
    }
    all
}

pub fn draw(random: &mut Random, case: &mut Vec<u64>) {
    // The longer lists are many, and are drawn less often.
    let longest = match random.below(32) {
        0 => random.next(),
        1 => 7,
        2 => 6,
        3 | 4 => 5,
        _ => random.below(5),
    };
    let needed = needed(longest);
    let len = match random.below(4) {
        0 => random.below(AREA as u64 + 1),
        1 => needed,
        _ => random.near(needed).min(AREA as u64),
    };
    let from = if random.one_in(2) { random.below(needed / 8 + 1).min(LAST) } else { random.below(LAST + 1) };
    case.extend([longest, len, from]);
}
