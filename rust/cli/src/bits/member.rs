//! Members, as words name them and as records hold them.

use super::library::{Layout, Refusal, Scalar, RECORD_LENGTH};
use super::Word;
use crate::record::PlacedMember;
use crate::scalars::{other_than, SCALARS};
use crate::words::{above, number, quoted, NoNumber};
use crate::{End, Result};

/// A member before it is placed.
pub struct Member {
    pub name: String,
    pub layout: Layout,
}

impl Member {
    pub fn placed(self, place: Word, gap: Word) -> PlacedMember {
        let (name, shape) = (self.name, self.layout.into());
        PlacedMember { name, shape, place: place.into(), gap: gap.into(), inner: Vec::new() }
    }
}

/// What a word names, before the library is asked for its layout.
pub struct Named {
    name: String,
    form: Form,
    is_run: bool,
}

enum Form {
    Scalar(Scalar),
    Type(Word, Word),
    Unpadded(Word, Word),
}

impl Named {
    /// Reads `[NAME=]WORD`, where a WORD is one that tools/members takes.
    pub fn read(given: &str) -> Result<Named> {
        let (name, word) = match given.rsplit_once('=') {
            Some((name, word)) => (name, word),
            None => (given, given),
        };
        // So that a name takes one line of a table, and may stand in XML.
        if name.is_empty() || !name.chars().all(|letter| letter.is_alphanumeric() || (' '..='~').contains(&letter)) {
            return Err(End::Wrong(format!("{} is no member; see --help", quoted(given))));
        }
        Named::read_word(name, word, given, "member")
    }

    /// Reads a WORD, which stands in what was given, and is to be a member or a type.
    pub fn read_word(name: &str, word: &str, given: &str, sort: &str) -> Result<Named> {
        let no_member = || End::Wrong(format!("{} is no {sort}; see --help", quoted(given)));
        let run = word.strip_prefix('[').and_then(|rest| rest.strip_suffix(']'));
        let inner = run.unwrap_or(word);
        if let Some(other) = other_than(inner, word) {
            return Err(End::Wrong(format!("{} is no {sort}: {other}", quoted(given))));
        }
        let numbers = |word: &str| match number(word) {
            Ok(value) => Ok(value),
            Err(NoNumber::Range) => {
                Err(End::Wrong(format!("{} is out of range: {}", quoted(given), above::<Word>(word))))
            }
            Err(NoNumber::Digits) => {
                let why = "a number is decimal digits alone";
                Err(End::Wrong(format!("{} is no {sort}: {why}; see --help", quoted(given))))
            }
        };
        let form = match inner.split(':').collect::<Vec<_>>()[..] {
            ["bytes", size] => Form::Unpadded(numbers(size)?, 1),
            ["type", size, align] => Form::Type(numbers(size)?, numbers(align)?),
            ["unpadded", size, align] => Form::Unpadded(numbers(size)?, numbers(align)?),
            [scalar] => {
                let at = SCALARS.iter().position(|name| *name == scalar).ok_or_else(no_member)?;
                Form::Scalar(Scalar::all().nth(at).ok_or_else(no_member)?)
            }
            _ => return Err(no_member()),
        };
        Ok(Named { name: name.to_string(), form, is_run: run.is_some() })
    }

    /// The layout that the library makes of it.
    pub fn layout(&self) -> Result<Layout, Refusal> {
        let one = match self.form {
            Form::Scalar(scalar) => Layout::scalar(scalar),
            Form::Type(size, align) => Layout::for_type(size, align)?,
            Form::Unpadded(size, align) => Layout::for_unpadded_type(size, align)?,
        };
        match one.size() {
            Some(size) if self.is_run => Layout::for_slice(size, one.align),
            _ => Ok(one),
        }
    }
}

/// The members of words. What the library refuses is said of its member.
pub fn members(named: Vec<Named>) -> Result<Vec<Member>> {
    let one = |(index, named): (usize, Named)| match named.layout() {
        Ok(layout) => Ok(Member { name: named.name, layout }),
        Err(refusal) => Err(End::Fail(refused(&member_at(index, Some(&named.name)), refusal))),
    };
    named.into_iter().enumerate().map(one).collect()
}

/// How a member is called in a refusal. One that came as a record has no name.
pub fn member_at(index: usize, name: Option<&str>) -> String {
    match name {
        Some(name) => format!("member {index} ({name})"),
        None => format!("member {index}"),
    }
}

/// What is refused where no member is.
pub const CLOSING: &str = "the closing padding";

/// The line of a refusal.
pub fn refused(what: &str, refusal: Refusal) -> String {
    format!("{what}: {refusal} (refusal {})", refusal.number())
}

/// The members of records that the library has accepted.
pub fn from_records(records: &[u8]) -> Result<Vec<Member>> {
    let one = |(index, record): (usize, &[u8])| match Layout::decode(record) {
        Ok(layout) => Ok(Member { name: format!("record {index}"), layout }),
        Err(refusal) => Err(End::Fail(refused(&member_at(index, None), refusal))),
    };
    records.chunks(RECORD_LENGTH).enumerate().map(one).collect()
}
