//! Short records, moves, and descriptions rewritten, which are told as a move is.

use super::layouts::words_of;
use super::library::*;
use super::{told, Inputs};

/// The output is the front of these bytes.
const AREA: usize = 512;
const BEFORE: u8 = 0xa5;

/// Words of the area.
fn seen<const N: usize>(area: &[u8], from: usize) -> [u64; N] {
    let mut words = area.chunks(8).skip(from).map(|word| u64::from_le_bytes(word.try_into().unwrap()));
    std::array::from_fn(|_| words.next().unwrap())
}

fn decoded(record: &[u8]) -> Vec<u64> {
    let answer = Layout::decode_short(record);
    if let Ok(whole) = record.try_into() {
        assert_eq!(Layout::from_short_bytes(whole), answer);
    }
    told(answer.map(words_of))
}

/// The first words of the area, on a refusal too.
fn encoded(layout: Layout, len: usize) -> Vec<u64> {
    let mut area = [BEFORE; AREA];
    let answer = layout.encode_short(&mut area[..len]);
    let written = answer.map_or(0, |()| SHORT_RECORD_LENGTH);
    assert_eq!(area[written..], [BEFORE; AREA][written..]);
    if len == SHORT_RECORD_LENGTH {
        assert_eq!(layout.to_short_bytes().map(Vec::from), answer.map(|()| area[..written].to_vec()));
    }
    [&[answer.map_or_else(Refusal::number, |()| 0)], &seen::<5>(&area, 0)[..]].concat()
}

type Move = fn(&[u8], &mut [u8]) -> Result<usize, Refused>;
type MoveToVec = fn(&[u8]) -> Result<Vec<u8>, Refused>;

/// The place, the bytes written, and words of the area. Where the output is long enough, the function that allocates
/// gives the same.
fn moved(i: &mut Inputs, into: Move, to_vec: MoveToVec) -> Vec<u64> {
    let (len, from, records) = (i.length(), i.length(), i.bytes());
    let mut area = [BEFORE; AREA];
    let answer = into(&records, &mut area[..len]);
    let written = answer.unwrap_or(0);
    assert_eq!(area[written..], [BEFORE; AREA][written..]);
    let refusal = answer.map_err(|refused| refused.refusal);
    if !matches!(refusal, Err(Refusal::OutputShort | Refusal::RewriteShort)) {
        assert_eq!(to_vec(&records), answer.map(|written| area[..written].to_vec()));
    }
    let told = match answer {
        Ok(written) => [0, 0, written as u64],
        Err(refused) => [refused.refusal.number(), refused.place, 0],
    };
    [&told[..], &seen::<10>(&area, from)].concat()
}

pub fn call(function: u64, i: &mut Inputs) -> Option<Vec<u64>> {
    Some(match function {
        39 => decoded(&i.bytes()),
        40 => encoded(i.layout()?, i.length()),
        41 => moved(i, records_to_short, records_to_short_vec),
        42 => moved(i, records_from_short, records_from_short_vec),
        54 => moved(i, lengthen_counts, lengthen_counts_vec),
        _ => moved(i, shorten_counts, shorten_counts_vec),
    })
}
