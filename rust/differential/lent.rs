//! Bytes and numbers that are lent to an export.
//!
//! A case holds them as numbers: the length in bytes, then the words of 8 bytes each, little-endian, and for a length
//! that is no multiple of 8 the remaining bytes as one such number. They come last, since their number varies.

use crate::answer::Answer;
use crate::exports::Lent;
use crate::width::{word, Word};

pub const RECORD: usize = 48;

/// The first bytes of the words, as a case holds them.
pub fn held(words: &[u64], len: usize) -> Vec<u64> {
    let mut held = vec![len as u64];
    held.extend(&words[..len / 8]);
    if len % 8 > 0 {
        held.push(words[len / 8] & ((1 << (len % 8 * 8)) - 1));
    }
    held
}

/// The bytes that a case holds.
pub fn bytes(held: &[u64]) -> Vec<u8> {
    let mut bytes: Vec<u8> = held[1..].iter().flat_map(|word| word.to_le_bytes()).collect();
    bytes.truncate(held[0] as usize);
    bytes
}

/// The records that a case holds end to end; None where its length is no multiple of a record's.
pub fn records(held: &[u64]) -> Option<Vec<[u64; 6]>> {
    if held[0] % RECORD as u64 != 0 {
        return None;
    }
    Some(held[1..].chunks_exact(6).map(|record| record.try_into().unwrap()).collect())
}

/// As many other bytes stand before the lent ones and after them. Odd, so that no word of them starts at a multiple of
/// 8: the C interface asks for no alignment.
const AROUND: usize = 49;
pub const OTHER: u8 = 0xa5;

/// Lends the bytes: what the call gave, the lent bytes after it, and how many of those around them changed.
fn lend<T>(lent: &[u8], call: impl FnOnce(*mut u8, usize) -> T) -> (T, Vec<u8>, usize) {
    let mut all = vec![OTHER; AROUND + lent.len() + AROUND];
    all[AROUND..][..lent.len()].copy_from_slice(lent);
    let gave = call(all[AROUND..].as_mut_ptr(), lent.len());
    let strays = changed(&all[..AROUND], &[OTHER; AROUND]) + changed(&all[AROUND + lent.len()..], &[OTHER; AROUND]);
    (gave, all[AROUND..][..lent.len()].to_vec(), strays)
}

fn changed(after: &[u8], before: &[u8]) -> usize {
    after.iter().zip(before).filter(|(after, before)| after != before).count()
}

fn stray(bytes: usize) -> Option<&'static str> {
    (bytes > 0).then_some("bytes changed that it may not change")
}

/// A call that only reads what it is lent.
pub fn reads(lent: &[u8], call: impl FnOnce(*const u8, usize) -> Answer) -> Answer {
    let (answer, after, strays) = lend(lent, |bytes, len| call(bytes, len));
    Answer { broken: stray(strays + changed(&after, lent)), ..answer }
}

/// A call that writes a record to what it is lent, and gives the refusal number. The answer has the words written.
pub fn writes(len: usize, call: impl FnOnce(*mut u8, usize) -> u64) -> Answer {
    let lent = vec![OTHER; len];
    let (refusal, after, strays) = lend(&lent, call);
    if refusal == 0 && len == RECORD {
        let mut words = [0; 6];
        for (word, bytes) in words.iter_mut().zip(after.chunks_exact(8)) {
            *word = u64::from_le_bytes(bytes.try_into().unwrap());
        }
        return Answer { broken: stray(strays), ..Answer::of(words) };
    }
    Answer { broken: stray(strays + changed(&after, &lent)), ..Answer::refused(refusal) }
}

/// The bytes of an area whose front is lent to be written.
pub const AREA: usize = 512;

/// A call that writes to the front of an area, of which so many bytes are lent: what it gave, the area afterwards, and
/// what it broke around that.
pub fn fills<T>(len: usize, call: impl FnOnce(*mut u8, usize) -> T) -> (T, Vec<u8>, Option<&'static str>) {
    fills_area(AREA, len, call)
}

/// The same of an area of another length.
pub fn fills_area<T>(
    area: usize,
    len: usize,
    call: impl FnOnce(*mut u8, usize) -> T,
) -> (T, Vec<u8>, Option<&'static str>) {
    fills_over(&vec![OTHER; area], len, call)
}

/// The same of an area with these bytes in it.
fn fills_over<T>(
    area: &[u8],
    len: usize,
    call: impl FnOnce(*mut u8, usize) -> T,
) -> (T, Vec<u8>, Option<&'static str>) {
    let (gave, area, strays) = lend(area, |out, _| call(out, len));
    (gave, area, stray(strays))
}

/// The same of a call that reads other bytes.
pub fn moves<T>(
    lent: &[u8],
    out_len: usize,
    call: impl FnOnce(*const u8, usize, *mut u8, usize) -> T,
) -> (T, Vec<u8>, Option<&'static str>) {
    moves_over(lent, &[OTHER; AREA], out_len, call)
}

/// The same into an area with these bytes in it.
pub fn moves_over<T>(
    lent: &[u8],
    area: &[u8],
    out_len: usize,
    call: impl FnOnce(*const u8, usize, *mut u8, usize) -> T,
) -> (T, Vec<u8>, Option<&'static str>) {
    let ((gave, area, broken), after, strays) =
        lend(lent, |from, len| fills_over(area, out_len, |out, out_len| call(from, len, out, out_len)));
    (gave, area, broken.or(stray(strays + changed(&after, lent))))
}

/// Numbers that are lent to be written, and as many others before them and after them.
pub struct Numbers {
    all: Vec<Word>,
    len: usize,
}

const NUMBERS_AROUND: usize = 4;
const OTHER_NUMBER: Word = 0xa5a5_a5a5_a5a5_a5a5_u64 as Word;

impl Numbers {
    pub fn new(len: u64) -> Numbers {
        let len = len as usize;
        Numbers { all: vec![OTHER_NUMBER; NUMBERS_AROUND + len + NUMBERS_AROUND], len }
    }

    pub fn as_mut_ptr(&mut self) -> *mut Word {
        self.all[NUMBERS_AROUND..].as_mut_ptr()
    }

    pub fn len(&self) -> usize {
        self.len
    }

    pub fn lent(&self) -> &[Word] {
        &self.all[NUMBERS_AROUND..][..self.len]
    }

    /// What changed that may not: of a refused call any of them, else those around.
    pub fn strays(&self, refusal: u64) -> Option<&'static str> {
        let [before, after] = [&self.all[..NUMBERS_AROUND], &self.all[NUMBERS_AROUND + self.len..]];
        let lent = if refusal == 0 { &[] } else { self.lent() };
        let changed = [before, lent, after].concat().iter().any(|number| *number != OTHER_NUMBER);
        changed.then_some("numbers changed that it may not change")
    }
}

/// A call that only reads numbers which it is lent: what it gave, and what it broke.
pub fn reads_numbers<T>(lent: &[u64], call: impl FnOnce(*const Word, usize) -> T) -> (T, Option<&'static str>) {
    let others = [OTHER_NUMBER; NUMBERS_AROUND];
    let numbers: Vec<Word> = lent.iter().map(|number| word(*number)).collect();
    let before = [&others, &numbers[..], &others].concat();
    let mut all = before.clone();
    let gave = call(all[NUMBERS_AROUND..].as_mut_ptr(), lent.len());
    (gave, (all != before).then_some("numbers changed that it may not change"))
}

/// A call that alters a layout which it is lent, and gives the refusal number: that, the words afterwards, and what it
/// broke. Other words stand before the lent ones and after them.
pub fn alters(lent: [u64; 6], call: impl FnOnce(&mut Lent<6>) -> u64) -> (u64, [u64; 6], Option<&'static str>) {
    const OTHERS: [Word; 6] = [OTHER_NUMBER; 6];
    let mut all = [Lent(OTHERS), Lent(lent.map(word)), Lent(OTHERS)];
    let refusal = call(&mut all[1]);
    let [before, Lent(after), behind] = all;
    let after = after.map(u64::from);
    let broken = if before.0 != OTHERS || behind.0 != OTHERS {
        Some("numbers changed that it may not change")
    } else if refusal != 0 && after != lent {
        Some("a refusal altered the lent layout")
    } else {
        None
    };
    (refusal, after, broken)
}
