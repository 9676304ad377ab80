//! Records of 32 bytes and their moves, of request 6 of document 02, by its text: byte by byte, over numbers that do
//! not overflow. It shares nothing with either side.

/// "The new record: size or base, offset, element size as 8 bytes each, the rounding word narrowed to 4, the
/// alignment's power 1, kind 1, two zero bytes, all little-endian."
const FIELDS: [usize; 7] = [8, 8, 8, 4, 1, 1, 2];

pub const OLD: usize = 48;
pub const NEW: usize = 32;

/// A way to move: the bytes of a record before and after, and a record's other form or its refusal.
pub struct Way {
    pub from: usize,
    pub to: usize,
    pub other: fn(&[u8]) -> Result<Vec<u8>, u64>,
}

pub const TO_SHORT: Way = Way { from: OLD, to: NEW, other: new_of_old };
pub const FROM_SHORT: Way = Way { from: NEW, to: OLD, other: old_of_new };

fn number(bytes: &[u8]) -> u128 {
    bytes.iter().rev().fold(0, |number, byte| 256 * number + u128::from(*byte))
}

fn bytes(number: u128, count: usize) -> Vec<u8> {
    (0..count).map(|at| (number >> (8 * at)) as u8).collect()
}

/// "22 or 2": a fixed one has nothing after its size, a trailing one has its word.
fn last_test(kind: u128, [offset, elem_size, word]: [u128; 3]) -> Result<(), u64> {
    let trailing = kind / 2 % 2 == 1;
    if !trailing && offset + elem_size + word > 0 {
        return Err(22);
    }
    if trailing && word == 0 {
        return Err(2);
    }
    Ok(())
}

/// "an old one's own tests then 40"
fn new_of_old(record: &[u8]) -> Result<Vec<u8>, u64> {
    let words: Vec<u128> = record.chunks(8).map(number).collect();
    let [align, kind, size, offset, elem_size, word] = words[..] else { unreachable!() };
    if kind > 7 {
        return Err(21);
    }
    let power = (0..64u32).find(|power| 1u128 << power == align).ok_or(1u64)?;
    last_test(kind, [offset, elem_size, word])?;
    if word >= 1 << 32 {
        return Err(40);
    }
    let fields = [size, offset, elem_size, word, power.into(), kind, 0];
    Ok(FIELDS.into_iter().zip(fields).flat_map(|(count, field)| bytes(field, count)).collect())
}

/// "a new one's 21, 42, then 22 or 2"
fn old_of_new(record: &[u8]) -> Result<Vec<u8>, u64> {
    let mut rest = record;
    let [size, offset, elem_size, word, power, kind, spare] = FIELDS.map(|count| {
        let (field, behind) = rest.split_at(count);
        rest = behind;
        number(field)
    });
    if kind > 7 {
        return Err(21);
    }
    if spare != 0 || power > 63 {
        return Err(42);
    }
    last_test(kind, [offset, elem_size, word])?;
    let words = [1 << power, kind, size, offset, elem_size, word];
    Ok(words.into_iter().flat_map(|word| bytes(word, 8)).collect())
}

/// The bytes that a move writes, or the refusal and its place: "lengths first .., then records in turn .., whole list
/// or nothing".
pub fn moved(way: &Way, records: &[u8], out_len: usize) -> Result<Vec<u8>, (u64, usize)> {
    if records.len() % way.from != 0 {
        return Err((20, 0));
    }
    if out_len < records.len() / way.from * way.to {
        return Err((41, 0));
    }
    let mut written = Vec::new();
    for (place, record) in records.chunks(way.from).enumerate() {
        written.extend((way.other)(record).map_err(|refusal| (refusal, place))?);
    }
    Ok(written)
}
