//! `lukaripe cast`: whether bytes hold a record, with how many elements, and what is left over.

use super::library::{padding_needed_for, CastType, Layout, Refusal};
use super::member::refused;
use super::sizes::{least, nearest, size_at};
use super::types::type_of;
use super::Word;
use crate::shape::{bytes, Shape};
use crate::table::Table;
use crate::words::{types, unknown, Given, Words};
use crate::{print, End, Result};

pub fn run(mut words: Words) -> Result<()> {
    let (mut others, mut address, mut length) = (Vec::new(), None, None);
    let (mut cast_type, mut is_exact) = (CastType::Prefix, false);
    while let Some(word) = words.next()? {
        match word {
            Given::Other(word) => others.push(word),
            Given::Option(option) => match option.as_str() {
                "--address" => address = Some(words.number(&option)?),
                "--length" => length = Some(words.number(&option)?),
                "--suffix" => cast_type = CastType::Suffix,
                "--exact" => is_exact = true,
                _ => return Err(unknown(&option)),
            },
        }
    }
    let [word] = types(others)?;
    let Some(length) = length else {
        return Err(End::Wrong("--length N is missing; see --help".into()));
    };
    if is_exact && (address.is_some() || cast_type == CastType::Suffix) {
        return Err(End::Wrong("--exact is of the length alone, without --address and --suffix; see --help".into()));
    }
    let layout = type_of(&word)?;
    let table = match is_exact {
        true => exact(layout, length)?,
        false => Asked { address: address.unwrap_or(0), length, cast_type }.granted(layout)?,
    };
    print(&format!("whole: {}\n\n{}", Shape::from(layout).said(), table.text()))
}

/// The bytes that are to be seen as a record.
struct Asked {
    address: Word,
    length: Word,
    cast_type: CastType,
}

impl Asked {
    fn granted(&self, layout: Layout) -> Result<Table> {
        let no = |refusal| End::Fail(format!("{}{}", refused(&self.said(), refusal), self.more(layout, refusal)));
        let cast = layout.validate_cast_and_convert_metadata(self.address, self.length, self.cast_type).map_err(no)?;
        let size = size_at(layout, cast.count).map_err(|none| no(none.refusal))?;
        let left = match self.cast_type {
            CastType::Prefix => format!("{} behind", self.length - cast.split),
            CastType::Suffix => format!("{} before", cast.split),
        };
        let heads = &[("count", false), ("size", false), ("split", false), ("left over", true)];
        Ok(Table { heads, rows: vec![vec![cast.count.to_string(), size.to_string(), cast.split.to_string(), left]] })
    }

    fn said(&self) -> String {
        let end = match self.cast_type {
            CastType::Prefix => "prefix",
            CastType::Suffix => "suffix",
        };
        format!("a {end} of {} at {}", bytes(self.length.into()), self.address)
    }

    /// The numbers that a refusal is about.
    fn more(&self, layout: Layout, refusal: Refusal) -> String {
        match refusal {
            Refusal::CastNotAligned => {
                // Where the sum overflows that is refused before.
                let (what, place) = match self.cast_type {
                    CastType::Prefix => ("the address", self.address),
                    CastType::Suffix => ("the end", self.address.wrapping_add(self.length)),
                };
                let short = padding_needed_for(place, layout.align).map(|short| format!(", {short} short of one"));
                let short = short.unwrap_or_default();
                format!(": {what}, {place}, is no multiple of the alignment {}{short}", layout.align)
            }
            Refusal::CastTooSmall => format!(": {}", least(layout)),
            _ => String::new(),
        }
    }
}

/// The greatest count that has exactly this size.
fn exact(layout: Layout, length: Word) -> Result<Table> {
    let no = |refusal| {
        let cause = refused(&format!("exactly {}", bytes(length.into())), refusal);
        End::Fail(format!("{cause}: {}", nearest(layout, length)))
    };
    let count = layout.metadata_for_exact_size(length).map_err(no)?;
    let size = size_at(layout, count).map_err(|none| no(none.refusal))?;
    Ok(Table { heads: &[("count", false), ("size", false)], rows: vec![vec![count.to_string(), size.to_string()]] })
}
