//! Descriptions rewritten, of request 8 of document 02, called and held to the plain text of it (plain_rewrite).
//!
//! A case is the length of the output that is lent, the word of its area from which on it is looked at, and the
//! description as `lent` holds bytes; the answer is as that of a move. The area is longer where the description is. A
//! second call has other bytes in it before, which must stay behind the result.

use crate::answer::Answer;
use crate::describe::{self, MOST_MEMBERS, MOST_OF_BYTE};
use crate::exports::*;
use crate::inputs::Input;
use crate::kinds::{Boundaries, Holds, Kind};
use crate::lent::{bytes, moves_over, AREA, OTHER};
use crate::moves::{answer, seen, SEEN};
use crate::plain_describe::At;
use crate::plain_rewrite::{rewritten, structs, Way};
use crate::random::Random;
use std::collections::BTreeMap;
use std::sync::Mutex;

type Export = unsafe extern "C" fn(*const u8, usize, *mut u8, usize) -> Told<2>;

/// A rewriting, and the one back.
pub struct Rewriting {
    pub name: &'static str,
    way: Way,
    there: Export,
    back: Export,
}

pub const LENGTHEN: Rewriting = Rewriting {
    name: "lengthen_counts",
    way: Way::Lengthen,
    there: lukaripe_lengthen_counts,
    back: lukaripe_shorten_counts,
};
pub const SHORTEN: Rewriting = Rewriting {
    name: "shorten_counts",
    way: Way::Shorten,
    there: lukaripe_shorten_counts,
    back: lukaripe_lengthen_counts,
};

/// The bytes of a description that a recorded line has room for, and a few more; longer ones have a longer area.
const MOST_SHORT: usize = 384;

/// The last word from which on every area can be looked at.
const LAST: usize = AREA / 8 - SEEN;

/// A rewritten description is at most a quarter longer, since a struct has four bytes or more.
fn area_of(description: &[u8]) -> usize {
    match description.len() {
        0..=MOST_SHORT => AREA,
        len => len + len / 4 + 64,
    }
}

// ---- the calls ----

fn called(by: Export, description: &[u8], area: &[u8], out_len: usize) -> (Told<2>, Vec<u8>, Option<&'static str>) {
    // SAFETY: the bytes are as many as said.
    moves_over(description, area, out_len, |from, len, out, out_len| unsafe { by(from, len, out, out_len) })
}

/// What is written into as much room, and nothing where it is refused.
fn result(by: Export, description: &[u8]) -> Vec<u8> {
    let mut out = vec![0; area_of(description)];
    // SAFETY: the bytes are as many as said.
    let told = unsafe { by(description.as_ptr(), description.len(), out.as_mut_ptr(), out.len()) };
    out.truncate(told.values[1] as usize);
    out
}

fn read(description: &[u8]) -> Told<7> {
    // SAFETY: the bytes are as many as said.
    unsafe { lukaripe_read(description.as_ptr(), description.len()) }
}

/// The area after so much was written to its front.
fn filled(area: &[u8], written: &[u8]) -> Vec<u8> {
    [written, &area[written.len()..]].concat()
}

/// What is expected, as it was told last: a case is looked at twice, and to read a long description takes longer than
/// all else. No case comes here while it is drawn, so that the Rust is asked for each that is compared.
fn expected_of(way: Way, description: &[u8], out_len: usize) -> Result<Vec<u8>, At> {
    type Last = (Way, Vec<u8>, usize, Result<Vec<u8>, At>);
    static LAST: Mutex<Option<Last>> = Mutex::new(None);
    let mut last = LAST.lock().unwrap();
    match &*last {
        Some((of, bytes, len, told)) if (*of, &bytes[..], *len) == (way, description, out_len) => told.clone(),
        _ => {
            let told = rewritten(way, description, out_len);
            *last = Some((way, description.to_vec(), out_len, told.clone()));
            told
        }
    }
}

/// What came of a rewriting. All that is written is looked at, and how both descriptions are read.
pub fn run(rewriting: &Rewriting, inputs: &[u64]) -> Answer {
    let &[out_len, from, ref held @ ..] = inputs else { unreachable!() };
    let (description, out_len) = (bytes(held), out_len as usize);
    let before = vec![OTHER; area_of(&description)];
    let (told, area, strays) = called(rewriting.there, &description, &before, out_len);
    let expected = expected_of(rewriting.way, &description, out_len);
    count(rewriting, &description, out_len, &expected);
    let written = expected.as_deref().unwrap_or(&[]);
    let broken = strays
        .or((area != filled(&before, written)).then_some("the output is not the result and what was there"))
        .or_else(|| not_over_others(rewriting, &description, out_len, &told, written))
        .or_else(|| match &expected {
            Ok(written) => not_the_same(rewriting, &description, written),
            Err((number, place)) => not_refused_alike(&description, *number, *place),
        });
    let Told { refusal, values } = told;
    Answer { broken, ..Answer::moved(refusal, values, seen::<SEEN>(&area, from)) }
}

/// What is broken where the output had other bytes before.
fn not_over_others(
    rewriting: &Rewriting,
    description: &[u8],
    out_len: usize,
    told: &Told<2>,
    written: &[u8],
) -> Option<&'static str> {
    let mut random =
        Random::new(description.iter().fold(out_len as u64, |seed, byte| 31 * seed % (1 << 48) + u64::from(*byte)));
    let before: Vec<u8> = (0..area_of(description)).map(|_| random.next() as u8).collect();
    let (again, area, strays) = called(rewriting.there, description, &before, out_len);
    let same = again == *told && area == filled(&before, written);
    strays.or((!same).then_some("with other bytes in the output it is not the same"))
}

/// What is broken where the result is not read as the same layout, or is turned once more, or where the way back does
/// not give the same bytes although it could.
fn not_the_same(rewriting: &Rewriting, description: &[u8], written: &[u8]) -> Option<&'static str> {
    if read(description) != read(written) {
        return Some("the result is not read as the same layout");
    }
    if result(rewriting.there, written) != written {
        return Some("the result is not rewritten to itself");
    }
    if goes_back(rewriting, description) && result(rewriting.back, written) != description {
        return Some("the way back does not give the same bytes");
    }
    None
}

/// "a description without 19 goes there and back to the same bytes", and one without 17 the other way.
fn goes_back(rewriting: &Rewriting, description: &[u8]) -> bool {
    structs(description).iter().all(|(_, long)| turns(rewriting, *long))
}

fn turns(rewriting: &Rewriting, long: bool) -> bool {
    long == (rewriting.way == Way::Shorten)
}

/// What is broken where the reader does not refuse it alike.
fn not_refused_alike(description: &[u8], number: u64, place: usize) -> Option<&'static str> {
    let Told { refusal, values: [of_read, ..] } = read(description);
    let alike = match number {
        44 | 45 => refusal == 0,
        _ => (refusal, of_read) == (number, place as u64),
    };
    (!alike).then_some("the reader does not refuse it alike")
}

/// What is expected of a rewriting.
pub fn expected(rewriting: &Rewriting, inputs: &[u64]) -> Answer {
    let &[out_len, from, ref held @ ..] = inputs else { unreachable!() };
    let description = bytes(held);
    let expected = expected_of(rewriting.way, &description, out_len as usize);
    let area = filled(&vec![OTHER; area_of(&description)], expected.as_deref().unwrap_or(&[]));
    answer(expected.map(|written| written.len()), &area, from)
}

// ---- how often what was tried ----

static COUNTS: Mutex<BTreeMap<(&str, &str), u64>> = Mutex::new(BTreeMap::new());

const OF_BOTH: [&str; 12] = [
    "rewritten, no tag turned",
    "rewritten, 1 to 9 tags turned",
    "rewritten, 10 tags or more turned",
    "rewritten, a struct of 255 members turned",
    "rewritten, 17 or 19 in a count or a power",
    "rewritten, output exact",
    "rewritten, output one byte more",
    "rewritten, output longer",
    "there and back",
    "refused 45, output one byte short",
    "refused 45, no tag turned",
    "refused by the reader, output short too",
];
const OF_LENGTHEN: [&str; 3] =
    ["rewritten, a struct of 256 to 65,534 members", "rewritten, a struct of 65,535 members", "rewritten, both tags"];
const OF_SHORTEN: [&str; 4] = [
    "refused 44, output short too",
    "refused 44, behind a count that fits",
    "refused 44, several counts above 255",
    "refused 44, a struct of 65,535 members",
];
const BYTES: &str = "bytes of the descriptions";

fn count(rewriting: &Rewriting, description: &[u8], out_len: usize, expected: &Result<Vec<u8>, (u64, usize)>) {
    let mut came = Vec::new();
    let read = !matches!(expected, Err((number, _)) if !matches!(number, 44 | 45));
    let all = if read { structs(description) } else { Vec::new() };
    let turned = all.iter().filter(|(_, long)| turns(rewriting, *long)).count();
    let has = |members: std::ops::RangeInclusive<u64>| all.iter().any(|(count, _)| members.contains(&(*count as u64)));
    match expected {
        Ok(written) => {
            came.push(match turned {
                0 => OF_BOTH[0],
                1..=9 => OF_BOTH[1],
                _ => OF_BOTH[2],
            });
            if all.contains(&(MOST_OF_BYTE as usize, rewriting.way == Way::Shorten)) {
                came.push(OF_BOTH[3]);
            }
            if description.iter().filter(|byte| matches!(byte, 17 | 19)).count() > all.len() {
                came.push(OF_BOTH[4]);
            }
            came.push(match out_len - written.len() {
                0 => OF_BOTH[5],
                1 => OF_BOTH[6],
                _ => OF_BOTH[7],
            });
            if goes_back(rewriting, description) {
                came.push(OF_BOTH[8]);
            }
            if has(256..=MOST_MEMBERS - 1) {
                came.push(OF_LENGTHEN[0]);
            }
            if has(MOST_MEMBERS..=MOST_MEMBERS) {
                came.push(OF_LENGTHEN[1]);
            }
            if turned > 0 && turned < all.len() {
                came.push(OF_LENGTHEN[2]);
            }
        }
        Err((45, _)) => {
            let needed = rewritten(rewriting.way, description, usize::MAX).map_or(0, |written| written.len());
            came.extend((out_len + 1 == needed).then_some(OF_BOTH[9]));
            came.extend((turned == 0).then_some(OF_BOTH[10]));
        }
        Err((44, _)) => {
            let above = all.iter().filter(|(members, _)| *members as u64 > MOST_OF_BYTE).count();
            came.extend((out_len < description.len() - turned).then_some(OF_SHORTEN[0]));
            came.extend((all[0].0 as u64 <= MOST_OF_BYTE).then_some(OF_SHORTEN[1]));
            came.extend((above > 1).then_some(OF_SHORTEN[2]));
            came.extend(has(MOST_MEMBERS..=MOST_MEMBERS).then_some(OF_SHORTEN[3]));
        }
        Err(_) => came.extend((out_len < description.len()).then_some(OF_BOTH[11])),
    }
    let mut counts = COUNTS.lock().unwrap();
    for what in came {
        *counts.entry((rewriting.name, what)).or_default() += 1;
    }
    *counts.entry((rewriting.name, BYTES)).or_default() += description.len() as u64;
}

/// What was tried, and how often.
pub fn counted(rewriting: &Rewriting) -> Vec<(String, u64)> {
    let counts = COUNTS.lock().unwrap();
    let of_way: &[&str] = if rewriting.way == Way::Lengthen { &OF_LENGTHEN } else { &OF_SHORTEN };
    let all = OF_BOTH.iter().chain(of_way).chain(&[BYTES]);
    all.map(|what| (what.to_string(), counts.get(&(rewriting.name, *what)).copied().unwrap_or(0))).collect()
}

// ---- cases ----

const TO_LENGTHEN: Kind = Kind {
    names: &[],
    holds: Holds::Bytes,
    good: &[6, 0, 4, 0x0000_0011],
    bad: &[],
    small: |level| small(&LENGTHEN, level),
    boundaries: Boundaries::Drawn(|random, case| case.extend(at_boundaries(random, &LENGTHEN))),
    draw: |random, case| case.extend(draw(random, &LENGTHEN)),
};

const TO_SHORTEN: Kind = Kind {
    good: &[6, 0, 5, 0x0000_0013],
    small: |level| small(&SHORTEN, level),
    boundaries: Boundaries::Drawn(|random, case| case.extend(at_boundaries(random, &SHORTEN))),
    draw: |random, case| case.extend(draw(random, &SHORTEN)),
    ..TO_LENGTHEN
};

pub const LENGTHENED: Input = Input { name: "out_len, from, description", kind: &TO_LENGTHEN };
pub const SHORTENED: Input = Input { name: "out_len, from, description", kind: &TO_SHORTEN };

/// The bytes that the output must have; of what is refused before, as many as it has itself.
fn needed(rewriting: &Rewriting, description: &[u8]) -> usize {
    rewritten(rewriting.way, description, usize::MAX).map_or(description.len(), |written| written.len())
}

/// Every short run of bytes that matter, with output of the length that it takes, and one byte less.
fn small(rewriting: &Rewriting, level: u64) -> Vec<Vec<u64>> {
    let mut cases = Vec::new();
    for held in describe::small(level) {
        let needed = needed(rewriting, &bytes(&held));
        for len in [needed.saturating_sub(1), needed] {
            cases.push([vec![len as u64, 0], held.clone()].concat());
        }
    }
    cases
}

fn at_boundaries(random: &mut Random, rewriting: &Rewriting) -> Vec<u64> {
    let description = describe::at_boundaries(random);
    with_output(random, rewriting, &description)
}

fn draw(random: &mut Random, rewriting: &Rewriting) -> Vec<u64> {
    let description = match random.below(8) {
        0 => above(random),
        1 => numbers_like_tags(random),
        _ => describe::draw(random),
    };
    with_output(random, rewriting, &description)
}

/// A struct of more than 255 scalars behind a few bytes; in it, or beside it, may be one more.
fn above(random: &mut Random) -> Vec<u8> {
    let mut out = match random.below(4) {
        0 => Vec::new(),
        1 => vec![18],
        2 => vec![16, 2, 0, 0, 0],
        _ => {
            let members = 1 + random.below(5);
            let mut head = describe::struct_head(random, [0, 0], members);
            head.extend((1..members).map(|_| random.below(9) as u8));
            head
        }
    };
    if random.one_in(4) && out.len() != 1 {
        out.push(18);
    }
    for last in [!random.one_in(4), true] {
        let members = match random.below(256) {
            0 => MOST_MEMBERS,
            1..=127 => 256,
            _ => 300,
        };
        out.extend(describe::struct_head(random, [0, 0], members));
        out.extend((1..members).map(|_| random.below(9) as u8));
        if last {
            out.push(random.below(9) as u8);
            break;
        }
    }
    out
}

/// Counts, alignments and packings that are 17 and 19 as bytes.
fn numbers_like_tags(random: &mut Random) -> Vec<u8> {
    let like = |random: &mut Random| if random.one_in(2) { 17 } else { 19 };
    let mut out = Vec::new();
    for _ in 0..1 + random.below(4) {
        match random.below(3) {
            0 => out.extend([16, like(random), 0, random.below(20) as u8, 0]),
            1 => {
                let (modifiers, members) = ([like(random), like(random)], u64::from(like(random)));
                out.extend(describe::struct_head(random, modifiers, members));
                out.extend((1..members).map(|_| random.below(9) as u8));
            }
            _ => out.extend([19, 0, 0, 1, 0]),
        }
    }
    out.push(random.below(9) as u8);
    out
}

/// Output about as long as it must be, looked at from its front, about where the result ends, or anywhere.
fn with_output(random: &mut Random, rewriting: &Rewriting, description: &[u8]) -> Vec<u64> {
    let held = describe::holding(description);
    let description = bytes(&held);
    let (needed, area) = (needed(rewriting, &description), area_of(&description));
    let len = match random.below(16) {
        0 | 1 => needed.saturating_sub(1),
        2 => needed + 1,
        3 => area,
        4 => random.below(area as u64 + 1) as usize,
        5 => random.below(needed as u64 + 1) as usize,
        _ => needed,
    };
    let from = match random.below(3) {
        0 => 0,
        1 => (needed / 8).saturating_sub(random.below(SEEN as u64) as usize),
        _ => random.below(LAST as u64 + 1) as usize,
    };
    [vec![len.min(area) as u64, from.min(LAST) as u64], held].concat()
}
