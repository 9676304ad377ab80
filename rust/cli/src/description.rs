//! Descriptions of types: their parts, in the order of their bytes.

use crate::record::{members_said, Asked};
use crate::scalars::SCALARS;
use lukaripe::{Refusal, Refused, TAG_ARRAY, TAG_LONG_STRUCT, TAG_SLICE, TAG_STRUCT};
use std::collections::BTreeMap;
use std::iter;
use std::num::NonZeroU64;
use std::ops::Range;

/// The number of a struct's members, in the byte or the two bytes that its head has for it.
#[derive(Clone, Copy, Debug, PartialEq, Eq)]
pub enum Members {
    Byte(u8),
    Two(u16),
}

impl Members {
    /// The most members of a struct.
    pub const MOST: u16 = u16::MAX;

    /// One member more, in a byte where that holds it.
    pub fn one_more(self) -> Option<Members> {
        let more = self.number().checked_add(1)?;
        Some(u8::try_from(more).map_or(Members::Two(more), Members::Byte))
    }

    pub fn number(self) -> u16 {
        match self {
            Members::Byte(members) => members.into(),
            Members::Two(members) => members,
        }
    }
}

/// What the head of a part says.
#[derive(Clone, Copy, Debug, PartialEq, Eq)]
pub enum Form {
    /// By its code.
    Scalar(usize),
    Array(u32),
    Struct(Asked, Members),
    Slice,
}

impl Form {
    /// In bytes.
    fn head(self) -> Vec<u8> {
        let power = |asked: Option<NonZeroU64>| asked.map_or(0, |asked| 1 + asked.trailing_zeros() as u8);
        match self {
            Form::Scalar(code) => vec![code as u8],
            Form::Array(count) => [&[TAG_ARRAY][..], &count.to_le_bytes()].concat(),
            Form::Struct(asked, members) => {
                let mut head = vec![TAG_STRUCT, power(asked.align), power(asked.packed)];
                match members {
                    Members::Byte(members) => head.push(members),
                    Members::Two(members) => {
                        head[0] = TAG_LONG_STRUCT;
                        head.extend(members.to_le_bytes());
                    }
                }
                head
            }
            Form::Slice => vec![TAG_SLICE],
        }
    }

    /// What the head says that the bytes begin with, of a description that the library accepts.
    fn read(bytes: &[u8]) -> Option<Form> {
        let power = |power: u8| power.checked_sub(1).and_then(|power| NonZeroU64::new(1 << power));
        let asked = |align: u8, packed: u8| Asked { align: power(align), packed: power(packed) };
        match *bytes {
            [TAG_ARRAY, a, b, c, d, ..] => Some(Form::Array(u32::from_le_bytes([a, b, c, d]))),
            [TAG_STRUCT, align, packed, members, ..] => {
                Some(Form::Struct(asked(align, packed), Members::Byte(members)))
            }
            [TAG_LONG_STRUCT, align, packed, low, high, ..] => {
                Some(Form::Struct(asked(align, packed), Members::Two(u16::from_le_bytes([low, high]))))
            }
            [TAG_SLICE, ..] => Some(Form::Slice),
            [code, ..] if usize::from(code) < SCALARS.len() => Some(Form::Scalar(code.into())),
            _ => None,
        }
    }

    /// The bytes of the head.
    pub fn length(self) -> usize {
        match self {
            Form::Scalar(_) | Form::Slice => 1,
            Form::Struct(_, Members::Byte(_)) => 4,
            Form::Struct(_, Members::Two(_)) | Form::Array(_) => 5,
        }
    }

    /// How many parts it holds.
    fn holds(self) -> usize {
        match self {
            Form::Scalar(_) => 0,
            Form::Array(_) | Form::Slice => 1,
            Form::Struct(_, members) => members.number().into(),
        }
    }
}

pub struct Part {
    pub name: Option<String>,
    pub form: Form,
}

/// A type and the types inside it. A part is known by the place of its tag.
pub struct Description {
    pub bytes: Vec<u8>,
    /// Of parts that have one.
    names: BTreeMap<usize, String>,
}

impl Description {
    /// Of parts in the order of their bytes: what a part holds follows it.
    pub fn new(parts: Vec<Part>) -> Description {
        let (mut bytes, mut names) = (Vec::new(), BTreeMap::new());
        for part in parts {
            names.extend(part.name.map(|name| (bytes.len(), name)));
            bytes.extend(part.form.head());
        }
        Description { bytes, names }
    }

    /// Of bytes. Where the library refuses them, nothing else may be asked for but the layout.
    pub fn of_bytes(bytes: Vec<u8>) -> Description {
        Description { bytes, names: BTreeMap::new() }
    }

    /// The same parts in other bytes, with the names that they have here.
    pub fn rewritten(&self, bytes: Vec<u8>) -> Description {
        let mut other = Description::of_bytes(bytes);
        let parts = self.parts().zip(other.parts());
        let named = parts.filter_map(|(part, new)| Some((new, self.names.get(&part)?.clone())));
        other.names = named.collect();
        other
    }

    /// The parts of a description that the library accepts, in the order of their bytes.
    fn parts(&self) -> impl Iterator<Item = usize> + '_ {
        let first = Some(0).filter(|_| !self.bytes.is_empty());
        iter::successors(first, |part| Some(part + self.form(*part).length()).filter(|next| *next < self.bytes.len()))
    }

    /// What is refused, in few words.
    pub fn sort_at_fault(&self, why: Refused) -> &'static str {
        match self.form_at(why.place) {
            // Its place is that of an alignment or a packing, whatever form it could be.
            _ if why.refusal == Refusal::NumberPassesWidth => "the number",
            Some(Form::Struct(..)) => "the struct",
            Some(Form::Array(_)) => "the array",
            Some(Form::Slice) => "the slice",
            Some(Form::Scalar(_)) | None => "the type",
        }
    }

    /// What stands at a place, where that is a head.
    pub fn form_at(&self, place: u64) -> Option<Form> {
        usize::try_from(place).ok().and_then(|place| self.bytes.get(place..)).and_then(Form::read)
    }

    /// What the head of a part says.
    pub fn form(&self, part: usize) -> Form {
        Form::read(&self.bytes[part..]).expect("an accepted description has a part here")
    }

    /// The bytes of a part and of all that it holds.
    pub fn span(&self, part: usize) -> Range<usize> {
        let (mut end, mut left) = (part, 1);
        while left > 0 {
            let form = self.form(end);
            end += form.length();
            left = left - 1 + form.holds();
        }
        part..end
    }

    /// The parts that a part holds.
    pub fn held(&self, part: usize) -> Vec<usize> {
        let form = self.form(part);
        let each = iter::successors(Some(part + form.length()), |held| Some(self.span(*held).end));
        each.take(form.holds()).collect()
    }

    /// The name of a part, or its type where it has none.
    pub fn name(&self, part: usize) -> String {
        self.names.get(&part).cloned().unwrap_or_else(|| self.type_name(part))
    }

    /// A type in few words: a struct without its members.
    pub fn type_name(&self, part: usize) -> String {
        let form = self.form(part);
        match form {
            Form::Scalar(code) => SCALARS[code].to_string(),
            Form::Array(count) => format!("[{}; {count}]", self.type_name(part + form.length())),
            Form::Slice => format!("[{}]", self.type_name(part + form.length())),
            Form::Struct(asked, _) => {
                let align = asked.align.map(|align| format!("align {align}"));
                let packed = asked.packed.map(|packed| format!("packed {packed}"));
                let mods: Vec<String> = [align, packed].into_iter().flatten().collect();
                match mods.is_empty() {
                    true => "struct".to_string(),
                    false => format!("struct({})", mods.join(", ")),
                }
            }
        }
    }

    /// The bytes in hex: a line for each head, and what it is.
    pub fn listing(&self) -> String {
        let mut text = String::new();
        // How many parts each has still to come, of those that are open.
        let mut left: Vec<usize> = Vec::new();
        for part in self.parts() {
            let form = self.form(part);
            let name = self.names.get(&part).map(|name| format!("{name}: ")).unwrap_or_default();
            let count = match form {
                Form::Struct(_, members) => format!(", {}", members_said(members.number().into())),
                _ => String::new(),
            };
            let head = hex(&self.bytes[part..part + form.length()]);
            let indent = "  ".repeat(left.len());
            text += &format!("{head:14}  {indent}{name}{}{count}\n", self.type_name(part));
            if let Some(left) = left.last_mut() {
                *left -= 1;
            }
            left.push(form.holds());
            while left.last() == Some(&0) {
                left.pop();
            }
        }
        text
    }
}

/// Bytes in hex, with spaces between them.
pub fn hex(bytes: &[u8]) -> String {
    bytes.iter().map(|byte| format!("{byte:02x}")).collect::<Vec<_>>().join(" ")
}

#[cfg(test)]
mod tests {
    use super::*;
    use crate::text::Typed;

    const TEXTS: [&str; 8] = [
        "u8",
        "[u16; 4]",
        "[u16]",
        "struct {}",
        "struct(align 32, packed 4) { u8, struct(align 16) { u8 }, [u64] }",
        "[struct { u8, [struct { u64, u8 }; 3], u8 }; 5]",
        "struct { [struct(align 8) {}; 7], [u8; 0] }",
        "[struct(align 9223372036854775808) {}; 2]",
    ];

    fn described(text: &str) -> Description {
        Typed::read(text).unwrap_or_else(|_| panic!("{text} is read")).described
    }

    #[test]
    fn heads_are_read_back() {
        for text in TEXTS {
            let described = described(text);
            let mut heads = Vec::new();
            while heads.len() < described.bytes.len() {
                let form = described.form(heads.len());
                assert_eq!(form.head().len(), form.length());
                heads.extend(form.head());
            }
            assert_eq!(heads, described.bytes, "{text}");
            assert_eq!(described.span(0), 0..heads.len(), "{text}");
        }
    }

    #[test]
    fn a_count_of_two_bytes_is_read() {
        let described = Description::of_bytes(vec![19, 0, 4, 2, 0, 0, 17, 0, 0, 1, 3]);
        assert_eq!(described.span(0), 0..11);
        assert_eq!(described.held(0), [5, 6]);
        assert_eq!(described.listing().lines().next(), Some("13 00 04 02 00  struct(packed 8), 2 members"));
    }

    #[test]
    fn heads_are_listed() {
        let text = "struct(align 8) { id: u64, [struct(align 2, packed 4) { u8 }; 258], struct {}, [char] }";
        let listed = "\
11 04 00 04     struct(align 8), 4 members
03                id: u64
10 02 01 00 00    [struct(align 2, packed 4); 258]
11 02 03 01         struct(align 2, packed 4), 1 member
00                    u8
11 00 00 00       struct, no members
12                [char]
06                  char
";
        assert_eq!(described(text).listing(), listed);
    }
}
