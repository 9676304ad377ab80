//! The reader of descriptions as one would write it in Rust, with the export's refusals and the same answer: a slice
//! and a place, and a function for each form, which call each other; and the rewriting, a pass over the heads for their
//! number and one that writes.

use super::exports::Told;
use super::tested::{told_at, SCALARS};
use crate::*;
use core::slice;

/// A layout and its alignment modifier, or the refusal and its place.
type Read<T> = Result<T, (u64, u64)>;

struct Reader<'a> {
    bytes: &'a [u8],
    place: usize,
}

impl Reader<'_> {
    #[inline]
    fn byte(&mut self) -> Read<u8> {
        let byte = self.bytes.get(self.place).copied().ok_or((33, self.place as u64))?;
        self.place += 1;
        Ok(byte)
    }

    #[inline]
    fn power(&mut self) -> Read<Option<NonZeroUsize>> {
        match self.byte()? {
            0 => Ok(None),
            byte @ 1..=64 => Ok(NonZeroUsize::new(1 << (byte - 1))),
            _ => Err((34, self.place as u64 - 1)),
        }
    }

    /// The part at the place, with so many more that may be open.
    fn part(&mut self, depth: usize) -> Read<(DstLayout, u64)> {
        let tag = self.place as u64;
        match self.byte()? {
            code @ 0..=8 => Ok((SCALARS[code as usize], 0)),
            16..=19 if depth == 0 => Err((35, tag)),
            16 => {
                let rest = &self.bytes[self.place..];
                let count = rest.first_chunk().ok_or((33, self.bytes.len() as u64))?;
                self.place += 4;
                let (size, align, element) = self.element(depth, tag)?;
                let size = size.checked_mul(u32::from_le_bytes(*count) as usize).ok_or((37, tag))?;
                let (unpadded, modifier) = element;
                let size_info = SizeInfo::Sized { size };
                Ok((DstLayout { align, size_info, statically_shallow_unpadded: unpadded }, modifier))
            }
            form @ (17 | 19) => self.record(depth - 1, tag, form == 19),
            18 => {
                let (size, align, (_, modifier)) = self.element(depth, tag)?;
                Ok((DstLayout::for_slice(size, align.get()), modifier))
            }
            _ => Err((34, tag)),
        }
    }

    /// Size, alignment, mark and modifier of an element.
    #[inline]
    fn element(&mut self, depth: usize, tag: u64) -> Read<(usize, NonZeroUsize, (bool, u64))> {
        let (layout, modifier) = self.part(depth - 1)?;
        match layout.size_info {
            SizeInfo::Sized { size } => Ok((size, layout.align, (layout.statically_shallow_unpadded, modifier))),
            SizeInfo::SliceDst(_) => Err((36, tag)),
        }
    }

    #[inline]
    fn record(&mut self, depth: usize, tag: u64, long: bool) -> Read<(DstLayout, u64)> {
        let (align, packing) = (self.power()?, self.power()?);
        let members = u16::from_le_bytes([self.byte()?, if long { self.byte()? } else { 0 }]);
        let (mut whole, mut of_all) = (DstLayout::new_zst(align), if align.is_some() { 4 } else { 0 });
        for _ in 0..members {
            let (member, modifier) = self.part(depth)?;
            whole = whole.try_extend(member, packing).map_err(|number| (number, tag))?;
            of_all |= modifier;
        }
        Ok((whole.try_pad_to_align().map_err(|number| (number, tag))?, of_all))
    }
}

#[inline]
fn whole(description: &[u8]) -> Read<(DstLayout, u64)> {
    let mut reader = Reader { bytes: description, place: 0 };
    let layout = reader.part(16)?;
    match reader.place {
        place if place < description.len() => Err((38, place as u64)),
        _ => Ok(layout),
    }
}

pub unsafe extern "C" fn read(description: *const u8, len: usize) -> Told<7> {
    told_at(whole(unsafe { slice::from_raw_parts(description, len) }))
}

// ---- the rewriting ----

/// The heads of a description that was read.
fn heads(description: &[u8]) -> impl Iterator<Item = (usize, &[u8])> {
    let mut at = 0;
    core::iter::from_fn(move || {
        let tag = *description.get(at)?;
        let place = at;
        at += match tag {
            16 | 19 => 5,
            17 => 4,
            _ => 1,
        };
        Some((place, &description[place..at]))
    })
}

#[inline]
fn rewritten(long: bool, description: &[u8], out: &mut [u8]) -> Read<usize> {
    whole(description)?;
    let mut len = description.len();
    for (place, head) in heads(description) {
        match head {
            [17, ..] if long => len += 1,
            [19, .., 0] if !long => len -= 1,
            [19, ..] if !long => return Err((44, place as u64)),
            _ => {}
        }
    }
    let mut rest = out.get_mut(..len).ok_or((45, 0))?;
    for (_, head) in heads(description) {
        let (front, behind) = rest.split_at_mut(match head {
            [17, ..] if long => 5,
            [19, ..] if !long => 4,
            _ => head.len(),
        });
        match *head {
            [17, align, packing, count] if long => front.copy_from_slice(&[19, align, packing, count, 0]),
            [19, align, packing, count, _] if !long => front.copy_from_slice(&[17, align, packing, count]),
            _ => front.copy_from_slice(head),
        }
        rest = behind;
    }
    Ok(len)
}

fn told_written(says: Read<usize>) -> Told<2> {
    match says {
        Ok(written) => Told { refusal: 0, values: [0, written as u64] },
        Err((refusal, place)) => Told { refusal, values: [place, 0] },
    }
}

pub unsafe extern "C" fn lengthen_counts(description: *const u8, len: usize, out: *mut u8, out_len: usize) -> Told<2> {
    let description = unsafe { slice::from_raw_parts(description, len) };
    told_written(rewritten(true, description, unsafe { slice::from_raw_parts_mut(out, out_len) }))
}

pub unsafe extern "C" fn shorten_counts(description: *const u8, len: usize, out: *mut u8, out_len: usize) -> Told<2> {
    let description = unsafe { slice::from_raw_parts(description, len) };
    told_written(rewritten(false, description, unsafe { slice::from_raw_parts_mut(out, out_len) }))
}
