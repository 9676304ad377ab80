//! `lukaripe layout`: the members of a record, where they stand, and a picture of it.

use super::described::record_with_inner;
use super::library::{for_repr_c_struct_places_records, Layout, Refusal, Refused, RECORD_LENGTH};
use super::member::{from_records, member_at, members, refused, Member, Named, CLOSING};
use super::placed::{compose, fitting, record};
use super::types::accepted;
use crate::bar::bar;
use crate::columns::Columns;
use crate::record::{Asked, Record};
use crate::table::Table;
use crate::text::is_text;
use crate::words::{unknown, Given, Words};
use crate::{files, print, svg, End, Result};
use std::num::NonZeroU64;

pub fn run(mut words: Words) -> Result<()> {
    let (mut asked, mut columns, mut records, mut picture) = (Asked::default(), Columns::default(), None, None);
    let (mut named, mut texts) = (Vec::new(), Vec::new());
    while let Some(word) = words.next()? {
        match word {
            Given::Other(word) => match Named::read(&word) {
                Ok(member) => named.push(member),
                // A text without quotes is several words.
                Err(_) if is_text(&word) || !texts.is_empty() => texts.push(word),
                Err(wrong) => return Err(wrong),
            },
            Given::Option(option) => match option.as_str() {
                "--align" => asked.align = asked_for(&mut words, &option)?,
                "--packed" => asked.packed = asked_for(&mut words, &option)?,
                "--records" => records = Some(words.file(&option)?),
                "--svg" => picture = Some(words.out_file(&option)?),
                "--columns" => columns = Columns::read(&mut words, &option)?,
                _ => return Err(unknown(&option)),
            },
        }
    }
    if records.is_some() && !(named.is_empty() && texts.is_empty()) {
        return Err(End::Wrong("members are words or --records FILE, not both; see --help".into()));
    }
    if !texts.is_empty() && texts.len() + named.len() > 1 {
        return Err(End::Wrong("a TEXT is one word, in quotes, and has no members beside it; see --help".into()));
    }
    if !texts.is_empty() && asked != Asked::default() {
        let how = "as 'struct(align 8) { u8 }'";
        return Err(End::Wrong(format!("alignment and packing of a TEXT stand in it, {how}; see --help")));
    }

    let record = match (records, texts.first()) {
        (Some(file), _) => of_records(asked, &file)?,
        (None, Some(text)) => of_text(text)?,
        (None, None) => of_members(asked, members(named)?)?,
    };
    if let Some(file) = picture {
        files::write(&file, svg::picture(&record).as_bytes())?;
    }
    print(&text(&record, columns))
}

/// An alignment or a packing, which fits the width.
fn asked_for(words: &mut Words, option: &str) -> Result<Option<NonZeroU64>> {
    let asked: super::Word = words.count(option)?;
    Ok(NonZeroU64::new(asked.into()))
}

fn of_members(asked: Asked, members: Vec<Member>) -> Result<Record> {
    let layouts: Vec<Layout> = members.iter().map(|member| member.layout).collect();
    match compose(asked, &layouts) {
        Ok(placed) => Ok(record(asked, placed, members)),
        Err(why) => {
            let names: Vec<&str> = members.iter().map(|member| member.name.as_str()).collect();
            Err(End::Fail(refusal(asked, why, members.len(), &names)))
        }
    }
}

fn of_text(text: &str) -> Result<Record> {
    let whole = |why: Refused| End::Fail(refused("the whole", why.refusal));
    record_with_inner(&accepted(text)?.typed.described).map_err(whole)
}

fn of_records(asked: Asked, file: &str) -> Result<Record> {
    let records = files::read(file)?;
    let placed = fitting(asked)
        .map_err(Refused::from)
        .and_then(|[align, packed]| for_repr_c_struct_places_records(align, packed, &records));
    match placed {
        Ok(placed) => Ok(record(asked, placed, from_records(&records)?)),
        Err(why) => Err(End::Fail(refusal(asked, why, records.len() / RECORD_LENGTH, &[]))),
    }
}

/// The line of a refusal: what it is about, the cause and the number.
fn refusal(asked: Asked, why: Refused, count: usize, names: &[&str]) -> String {
    let place = why.place as usize;
    let what = match why.refusal {
        Refusal::RecordLength => "the list of records".to_string(),
        // The own alignment is tested before any member.
        _ if fitting(asked).is_ok_and(|[align, _]| Layout::new_zst(align).is_err()) => {
            format!("the alignment of the whole, {}", asked.align.map_or(0, NonZeroU64::get))
        }
        Refusal::RoundingPassesMax if place == count => CLOSING.to_string(),
        _ => member_at(place, names.get(place).copied()),
    };
    refused(&what, why.refusal)
}

fn text(record: &Record, columns: Columns) -> String {
    let mut text = Table::members(record).text();
    text += &format!("\nwhole: {}\n", record.summary());
    if record.is_open() {
        text += &format!("\n{}", Table::sizes(record).text());
    }
    text + "\n" + &bar(record, columns)
}
