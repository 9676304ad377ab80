//! Short records and moves, of request 6 of document 02, called and held to the plain text of it (plain_short).
//!
//! Output is lent as the front of an area, whose other bytes stand behind it. A case of a move is the length that is
//! lent, the word of the area from which on it is looked at, and the records' bytes as `lent` holds them. The answer
//! has ten words of the area from there on, as they are afterwards, on a refusal too; the rest is looked at beside.

use crate::answer::Answer;
use crate::exports::*;
use crate::lent::{bytes, fills, moves, AREA, OTHER};
use crate::plain_short::{self, moved, FROM_SHORT, NEW, TO_SHORT};
use crate::table::{self, first};
use oracle::Layout;
use std::collections::BTreeMap;
use std::sync::Mutex;

/// The words of the area that an answer has, of a move and of one short record.
pub const SEEN: usize = 10;
const SEEN_OF_ONE: usize = 5;

type Export = unsafe extern "C" fn(*const u8, usize, *mut u8, usize) -> Told<2>;
type Decode = unsafe extern "C" fn(*const u8, usize) -> Told<6>;

/// A move, the one back, and what reads a record before it and after it.
pub struct Way {
    pub name: &'static str,
    pub plain: plain_short::Way,
    there: Export,
    back: Export,
    before: Decode,
    after: Decode,
    to_short: bool,
}

pub const TO: Way = Way {
    name: "records_to_short",
    plain: TO_SHORT,
    there: lukaripe_records_to_short,
    back: lukaripe_records_from_short,
    before: lukaripe_decode,
    after: lukaripe_decode_short,
    to_short: true,
};
pub const FROM: Way = Way {
    name: "records_from_short",
    plain: FROM_SHORT,
    there: lukaripe_records_from_short,
    back: lukaripe_records_to_short,
    before: lukaripe_decode_short,
    after: lukaripe_decode,
    to_short: false,
};

pub fn seen<const N: usize>(area: &[u8], from: u64) -> [u64; N] {
    let mut words = area.chunks_exact(8).skip(from as usize).map(|word| u64::from_le_bytes(word.try_into().unwrap()));
    std::array::from_fn(|_| words.next().unwrap())
}

/// The area after so much was written to its front.
fn filled(written: &[u8]) -> Vec<u8> {
    let mut area = vec![OTHER; AREA];
    area[..written.len()].copy_from_slice(written);
    area
}

fn words(record: &[u8]) -> Layout {
    seen(record, 0)
}

// ---- one record ----

fn decoded(by: Decode, record: &[u8]) -> Told<6> {
    // SAFETY: the bytes are as many as said.
    unsafe { by(record.as_ptr(), record.len()) }
}

/// What is expected of a short record: the words of its old form.
pub fn layout_of_short(record: &[u8]) -> Answer {
    if record.len() != NEW {
        return Answer::refused(20);
    }
    match (FROM_SHORT.other)(record) {
        // Its own tests are behind it, and the numbers may be too great for the width.
        Ok(old) => first(&table::record(words(&old))).unwrap_or(Answer::of(words(&old))),
        Err(refusal) => Answer::refused(refusal),
    }
}

/// The short record of a layout, and the front of the area afterwards.
pub fn encode(layout: Layout, len: u64) -> Answer {
    let (refusal, area, strays) = fills(len as usize, |out, len| {
        // SAFETY: the bytes are as many as said.
        unsafe { lukaripe_encode_short(Words(layout), out, len) }
    });
    let behind = if refusal == 0 { NEW } else { 0 };
    let changed = area[behind..].iter().any(|byte| *byte != OTHER);
    let broken = strays.or(changed.then_some("bytes changed that it may not change"));
    Answer { broken, ..Answer::written(refusal, seen::<SEEN_OF_ONE>(&area, 0)) }
}

pub fn short_of_layout(layout: Layout, len: u64) -> Answer {
    let old: Vec<u8> = layout.iter().flat_map(|word| word.to_le_bytes()).collect();
    let expected = if len == NEW as u64 { (TO_SHORT.other)(&old) } else { Err(20) };
    let area = filled(expected.as_deref().unwrap_or(&[]));
    Answer::written(expected.err().unwrap_or(0), seen::<SEEN_OF_ONE>(&area, 0))
}

// ---- a move ----

/// What is told of a move, and words of the area.
pub fn answer(told: Result<usize, (u64, usize)>, area: &[u8], from: u64) -> Answer {
    match told {
        Ok(written) => Answer::moved(0, [0, written as u64], seen::<SEEN>(area, from)),
        Err((refusal, place)) => Answer::moved(refusal, [place as u64, 0], seen::<SEEN>(area, from)),
    }
}

/// What came of a move. All that is written is looked at, and how the other exports read both forms.
pub fn run(way: &Way, inputs: &[u64]) -> Answer {
    let &[out_len, from, ref list @ ..] = inputs else { unreachable!() };
    let records = bytes(list);
    // SAFETY: the bytes are as many as said.
    let call = |records, len, out, out_len| unsafe { (way.there)(records, len, out, out_len) };
    let (Told { refusal, values: [place, written] }, area, strays) = moves(&records, out_len as usize, call);
    let expected = moved(&way.plain, &records, out_len as usize);
    let broken = strays.or_else(|| match &expected {
        Ok(written) if area != filled(written) => Some("the output is not the moved records and what was there"),
        Ok(written) => not_back(way, &records, written),
        Err(_) if area != filled(&[]) => Some("a refusal wrote"),
        Err((number, place)) => not_refused_alone(way, &records, *number, *place),
    });
    count(way, &records, out_len as usize, refusal);
    Answer { broken, ..Answer::moved(refusal, [place, written], seen::<SEEN>(&area, from)) }
}

/// What is broken where the way back does not give the same bytes, or one form has another layout than the other.
fn not_back(way: &Way, records: &[u8], written: &[u8]) -> Option<&'static str> {
    let mut again = vec![0; records.len()];
    // SAFETY: the bytes are as many as said.
    let told = unsafe { (way.back)(written.as_ptr(), written.len(), again.as_mut_ptr(), again.len()) };
    if (told.refusal, told.values) != (0, [0, records.len() as u64]) || again != records {
        return Some("the way back does not give the same bytes");
    }
    for (before, after) in records.chunks(way.plain.from).zip(written.chunks(way.plain.to)) {
        let [one, other] = [decoded(way.before, before), decoded(way.after, after)];
        let short = if way.to_short { after } else { before };
        let mut encoded = [0; NEW];
        // SAFETY: the bytes are as many as said.
        let refusal = unsafe { lukaripe_encode_short(Words(one.values), encoded.as_mut_ptr(), NEW) };
        if one.refusal != 0 || one != other {
            return Some("a record and its other form are not the same layout");
        }
        if refusal != 0 || encoded != short {
            return Some("the layout's short record is another");
        }
    }
    None
}

/// What is broken where a record of a refused list is not refused by itself too.
fn not_refused_alone(way: &Way, records: &[u8], number: u64, place: usize) -> Option<&'static str> {
    if matches!(number, 20 | 41) {
        return None;
    }
    let record = &records[place * way.plain.from..][..way.plain.from];
    let alone = decoded(way.before, record);
    let refusal = match number {
        40 => {
            let mut out = [0; NEW];
            // SAFETY: the bytes are as many as said.
            unsafe { lukaripe_encode_short(Words(alone.values), out.as_mut_ptr(), NEW) }
        }
        _ => alone.refusal,
    };
    (refusal != number).then_some("a record is not refused by itself as in its list")
}

/// What is expected of a move.
pub fn expected(way: &Way, inputs: &[u64]) -> Answer {
    let &[out_len, from, ref list @ ..] = inputs else { unreachable!() };
    let expected = moved(&way.plain, &bytes(list), out_len as usize);
    let area = filled(expected.as_deref().unwrap_or(&[]));
    answer(expected.map(|written| written.len()), &area, from)
}

// ---- how often each length was lent ----

/// Whether it is the way to short records, what came of it, and how long the output was.
type Outcome = (bool, &'static str, &'static str);

static COUNTS: Mutex<BTreeMap<Outcome, u64>> = Mutex::new(BTreeMap::new());

const RECORDS: &str = "records of the lists";

fn count(way: &Way, records: &[u8], out_len: usize, refusal: u64) {
    let records = records.len() / way.plain.from;
    let needed = records * way.plain.to;
    let came = match refusal {
        0 if records == 0 => "no records",
        0 => "moved",
        20 => "refused 20",
        41 => "refused 41",
        _ => "refused at a record",
    };
    let length = match out_len {
        _ if out_len + 1 == needed => "one byte short",
        _ if out_len < needed => "shorter",
        _ if out_len == needed => "exact",
        _ if out_len == needed + 1 => "one byte more",
        _ => "longer",
    };
    let mut counts = COUNTS.lock().unwrap();
    *counts.entry((way.to_short, came, length)).or_default() += 1;
    *counts.entry((way.to_short, RECORDS, "")).or_default() += records as u64;
}

/// Each thing that can come of a move with each length of the output, and how often it did; and the records.
pub fn counted(way: &Way) -> Vec<(String, u64)> {
    const ENOUGH: [&str; 3] = ["exact", "one byte more", "longer"];
    const LESS: [&str; 2] = ["one byte short", "shorter"];
    let all = [&LESS[..], &ENOUGH].concat();
    let outcomes: [(&str, &[&str]); 6] = [
        ("no records", &ENOUGH),
        ("moved", &ENOUGH),
        ("refused at a record", &ENOUGH),
        ("refused 20", &all),
        ("refused 41", &LESS),
        (RECORDS, &[""]),
    ];
    let counts = COUNTS.lock().unwrap();
    let mut counted = Vec::new();
    for (came, lengths) in outcomes {
        for length in lengths {
            let count = counts.get(&(way.to_short, came, *length)).copied().unwrap_or(0);
            let name = if came == RECORDS { came.to_string() } else { format!("{came}, output {length}") };
            counted.push((name, count));
        }
    }
    counted
}
