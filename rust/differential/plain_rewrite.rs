//! Descriptions rewritten, of request 8 of document 02, by its text: a description is taken apart into a tree, which is
//! then written with the other tag.

use crate::plain_describe::{self, At};

/// The two ways.
#[derive(Clone, Copy, PartialEq, Eq)]
pub enum Way {
    /// "every 17 into 19"
    Lengthen,
    /// "every 19 into 17"
    Shorten,
}

/// A part of a description.
enum Part {
    Scalar(u8),
    Array(Vec<u8>, Box<Part>),
    Slice(Box<Part>),
    Struct(Struct),
}

struct Struct {
    /// Where its tag stands.
    place: usize,
    long: bool,
    align: u8,
    packing: u8,
    members: Vec<Part>,
}

/// The part that the bytes begin with, which are a description; they end behind it then.
fn part(all: usize, bytes: &mut &[u8]) -> Part {
    let place = all - bytes.len();
    let mut take = |count: usize| {
        let (taken, rest) = bytes.split_at(count);
        *bytes = rest;
        taken.to_vec()
    };
    match take(1)[0] {
        16 => {
            let count = take(4);
            Part::Array(count, Box::new(part(all, bytes)))
        }
        18 => Part::Slice(Box::new(part(all, bytes))),
        tag @ (17 | 19) => {
            let (modifiers, count) = (take(2), take(if tag == 17 { 1 } else { 2 }));
            let count = count.iter().rev().fold(0, |count, byte| 256 * count + u32::from(*byte));
            let members = (0..count).map(|_| part(all, bytes)).collect();
            Part::Struct(Struct { place, long: tag == 19, align: modifiers[0], packing: modifiers[1], members })
        }
        code => Part::Scalar(code),
    }
}

impl Part {
    /// Calls this with each struct, one before those in it.
    fn each_struct<'a>(&'a self, visit: &mut impl FnMut(&'a Struct)) {
        match self {
            Part::Scalar(_) => {}
            Part::Array(_, element) | Part::Slice(element) => element.each_struct(visit),
            Part::Struct(record) => {
                visit(record);
                record.members.iter().for_each(|member| member.each_struct(visit));
            }
        }
    }

    /// Appends it, its structs so.
    fn write(&self, way: Way, out: &mut Vec<u8>) {
        match self {
            Part::Scalar(code) => out.push(*code),
            Part::Array(count, element) => {
                out.push(16);
                out.extend(count);
                element.write(way, out);
            }
            Part::Slice(element) => {
                out.push(18);
                element.write(way, out);
            }
            Part::Struct(Struct { align, packing, members, .. }) => {
                let count = members.len();
                match way {
                    Way::Lengthen => out.extend([19, *align, *packing, (count % 256) as u8, (count / 256) as u8]),
                    Way::Shorten => out.extend([17, *align, *packing, count as u8]),
                }
                members.iter().for_each(|member| member.write(way, out));
            }
        }
    }
}

/// The structs of a description, in the order of their tags: the member count, and whether that has two bytes.
pub fn structs(description: &[u8]) -> Vec<(usize, bool)> {
    let mut all = Vec::new();
    part(description.len(), &mut &*description).each_struct(&mut |record| {
        all.push((record.members.len(), record.long));
    });
    all
}

/// The bytes that are written, or the refusal and its place: "A description that the reader refuses is refused alike,
/// first; then 44, at the tag, when the way back meets a count above 255, then 45, at 0, when the output is too short".
pub fn rewritten(way: Way, description: &[u8], out_len: usize) -> Result<Vec<u8>, At> {
    plain_describe::read(description)?;
    let whole = part(description.len(), &mut &*description);
    if way == Way::Shorten {
        let mut above = Vec::new();
        whole.each_struct(&mut |record| {
            if record.members.len() > 255 {
                above.push(record.place);
            }
        });
        if let Some(place) = above.into_iter().min() {
            return Err((44, place));
        }
    }
    let mut written = Vec::new();
    whole.write(way, &mut written);
    if written.len() > out_len {
        return Err((45, 0));
    }
    Ok(written)
}
