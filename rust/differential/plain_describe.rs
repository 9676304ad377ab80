//! Descriptions of types, of requests 4 and 8 of document 02, read by its text with a place that moves byte by byte.
//! Scalars, slices, members and closing padding are the Rust's own; the rest shares nothing with either side.

use crate::width::{BITS, M};
use oracle::{said, Layout};

/// A refusal and the place of its byte.
pub type At = (u64, usize);

/// "with up to 16 structs, arrays and slices open"
const MOST_OPEN: usize = 16;

/// Of a kind. The Rust has no alignment modifier.
const TRAILING: u64 = 2;
const MODIFIER: u64 = 4;

/// The layout that the bytes describe.
pub fn read(bytes: &[u8]) -> Result<Layout, At> {
    let mut reader = Reader { bytes, place: 0, open: 0 };
    let layout = reader.part()?;
    // "38 when bytes are left over", "the first left over".
    if reader.place < bytes.len() {
        return Err((38, reader.place));
    }
    Ok(layout)
}

struct Reader<'a> {
    bytes: &'a [u8],
    place: usize,
    open: usize,
}

impl Reader<'_> {
    /// "33 when bytes run out", at "the first missing byte".
    fn byte(&mut self) -> Result<u8, At> {
        let byte = self.bytes.get(self.place).ok_or((33, self.place))?;
        self.place += 1;
        Ok(*byte)
    }

    /// "alignment and packing as one byte each (0 none, else 1 + the power)"; "34 when a power is above 63"; "43 when a
    /// number in a .. description does not fit the chosen width, .. when it is read, at its byte".
    fn power(&mut self) -> Result<u64, At> {
        let place = self.place;
        match self.byte()? {
            0 => Ok(0),
            byte @ 1..=64 if u64::from(byte) <= BITS => Ok(1 << (byte - 1)),
            1..=64 => Err((43, place)),
            _ => Err((34, place)),
        }
    }

    /// A little-endian count of so many bytes.
    fn count(&mut self, bytes: u32) -> Result<u128, At> {
        let mut count = 0;
        for at in 0..bytes {
            count += u128::from(self.byte()?) << (8 * at);
        }
        Ok(count)
    }

    fn part(&mut self) -> Result<Layout, At> {
        let tag = self.place;
        match self.byte()? {
            code @ 0..=8 => oracle::scalar(code.into()).map_err(|number| (number, tag)),
            // "for 35 the tag that opens the seventeenth part"
            16..=19 if self.open == MOST_OPEN => Err((35, tag)),
            form @ 16..=19 => {
                self.open += 1;
                let layout = match form {
                    16 => self.array(tag),
                    18 => self.slice(tag),
                    // "tag 19, a struct with a two-byte little-endian count, else under 17's rules"
                    17 => self.record(tag, 1),
                    _ => self.record(tag, 2),
                };
                self.open -= 1;
                layout
            }
            _ => Err((34, tag)),
        }
    }

    /// "a four-byte little-endian count and an element"; "An array keeps its element's mark and alignment; its size is
    /// the product." 36 and 37 stand at the place of "the array or slice holding the element".
    fn array(&mut self, tag: usize) -> Result<Layout, At> {
        let count = self.count(4)?;
        let [align, kind, size, ..] = self.element(tag)?;
        let product = u128::from(size) * count;
        if product > M.into() {
            return Err((37, tag));
        }
        Ok([align, kind, product as u64, 0, 0, 0])
    }

    fn slice(&mut self, tag: usize) -> Result<Layout, At> {
        let [align, kind, size, ..] = self.element(tag)?;
        let slice = oracle::for_slice(size, align).map_err(|number| (number, tag))?;
        Ok(with_modifier(slice, kind))
    }

    /// "an element is judged once read"
    fn element(&mut self, tag: usize) -> Result<Layout, At> {
        let element = self.part()?;
        if element[1] & TRAILING != 0 {
            return Err((36, tag));
        }
        Ok(element)
    }

    /// "A member is added once its last byte is read, closing padding after the last member"; "refusals of composing a
    /// struct keep their numbers, at the place of its tag".
    fn record(&mut self, tag: usize, count_bytes: u32) -> Result<Layout, At> {
        let (align, packing, members) = (self.power()?, self.power()?, self.count(count_bytes)?);
        let mut modifier = if align == 0 { 0 } else { MODIFIER };
        let mut whole = said(|| oracle::new_zst(align)).map_err(|number| (number, tag))?;
        for _ in 0..members {
            let member = self.part()?;
            whole = said(|| oracle::extend(whole, member, packing)).map_err(|number| (number, tag))?;
            modifier |= member[1];
        }
        let padded = said(|| oracle::pad_to_align(whole)).map_err(|number| (number, tag))?;
        Ok(with_modifier(padded, modifier))
    }
}

/// The layout, with the alignment modifier where the other kind has it.
fn with_modifier([align, kind, rest @ ..]: Layout, other: u64) -> Layout {
    let [size_base, offset, elem_size, word] = rest;
    [align, kind | (other & MODIFIER), size_base, offset, elem_size, word]
}
