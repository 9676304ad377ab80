//! `lukaripe describe`: the bytes that describe a type, of a text, and read back.

use super::described::record;
use super::types::{accepted, accepted_bytes, marked_bytes};
use crate::description::Description;
use crate::words::{unknown, Given, Words};
use crate::{files, print, print_bytes, End, Result};

pub fn run(mut words: Words) -> Result<()> {
    let (mut text, mut out, mut read, mut is_hex) = (None, None, None, false);
    while let Some(word) = words.next()? {
        match word {
            Given::Other(word) if text.is_none() => text = Some(word),
            Given::Other(_) => return Err(End::Wrong("a TEXT is one word, in quotes; see --help".into())),
            Given::Option(option) => match option.as_str() {
                "--hex" => is_hex = true,
                "--out" => out = Some(words.out_file(&option)?),
                "--read" => read = Some(words.file(&option)?),
                _ => return Err(unknown(&option)),
            },
        }
    }
    match (text, read) {
        (Some(text), None) => write(&text, out, is_hex),
        (None, Some(_)) if out.is_some() => Err(End::Wrong("--out is for a TEXT, not for --read; see --help".into())),
        (None, Some(file)) => read_back(&file, is_hex),
        (Some(_), Some(_)) => Err(End::Wrong("a type is a TEXT or --read FILE, not both; see --help".into())),
        (None, None) => Err(End::Wrong("a TEXT is missing; see --help".into())),
    }
}

fn write(text: &str, out: Option<String>, is_hex: bool) -> Result<()> {
    hand_out(&accepted(text)?.typed.described, out, is_hex)
}

/// The bytes go to a file, or are printed; in hex, with what each part is, they are printed beside the file too.
pub fn hand_out(described: &Description, out: Option<String>, is_hex: bool) -> Result<()> {
    if let Some(file) = &out {
        files::write(file, &described.bytes)?;
    }
    match (is_hex, out) {
        (true, _) => print(&described.listing()),
        (false, None) => print_bytes(&described.bytes),
        (false, Some(_)) => Ok(()),
    }
}

fn read_back(file: &str, is_hex: bool) -> Result<()> {
    let described = accepted_bytes(file)?;
    let record = record(&described).map_err(|why| marked_bytes(file, &described.bytes, why))?;
    let listing = if is_hex { described.listing() + "\n" } else { String::new() };
    print(&format!("{listing}whole: {}\n", record.summary()))
}
