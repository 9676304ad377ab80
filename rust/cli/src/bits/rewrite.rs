//! `lukaripe rewrite`: a description with the member counts of all structs in two bytes, or in one.

use super::describe::hand_out;
use super::library::{lengthen_counts_vec, shorten_counts_vec, Refused};
use super::types::{accepted, marked, marked_bytes};
use crate::description::Description;
use crate::words::{unknown, Given, Words};
use crate::{files, End, Result};

/// How a description is rewritten.
type Way = fn(&[u8]) -> Result<Vec<u8>, Refused>;

pub fn run(mut words: Words) -> Result<()> {
    let (mut ways, mut text, mut read, mut out, mut is_hex) = (Vec::<Way>::new(), None, None, None, false);
    while let Some(word) = words.next()? {
        match word {
            Given::Other(word) if text.is_none() => text = Some(word),
            Given::Other(_) => return Err(End::Wrong("a TEXT is one word, in quotes; see --help".into())),
            Given::Option(option) => match option.as_str() {
                "--lengthen" => ways.push(lengthen_counts_vec),
                "--shorten" => ways.push(shorten_counts_vec),
                "--hex" => is_hex = true,
                "--out" => out = Some(words.out_file(&option)?),
                "--read" => read = Some(words.file(&option)?),
                _ => return Err(unknown(&option)),
            },
        }
    }
    let [way] = ways[..] else {
        return Err(End::Wrong("one of --lengthen and --shorten is to be there; see --help".into()));
    };
    let rewritten = match (text, read) {
        (Some(text), None) => of_text(way, &text)?,
        (None, Some(file)) => of_file(way, &file)?,
        (Some(_), Some(_)) => return Err(End::Wrong("a type is a TEXT or --read FILE, not both; see --help".into())),
        (None, None) => return Err(End::Wrong("a TEXT is missing; see --help".into())),
    };
    hand_out(&rewritten, out, is_hex)
}

fn of_text(way: Way, text: &str) -> Result<Description> {
    let typed = accepted(text)?.typed;
    let bytes = way(&typed.described.bytes).map_err(|why| marked(&typed, why))?;
    Ok(typed.described.rewritten(bytes))
}

fn of_file(way: Way, file: &str) -> Result<Description> {
    let description = files::read(file)?;
    let bytes = way(&description).map_err(|why| marked_bytes(file, &description, why))?;
    Ok(Description::of_bytes(bytes))
}
