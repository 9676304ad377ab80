//! `lukaripe cases`: every short list of members under every packing.

use super::library::{cases, for_repr_c_struct, write_cases, Case, Refusal, CASES_LENGTH, CASE_LENGTH};
use super::member::refused;
use crate::scalars::SCALARS;
use crate::shape::Shape;
use crate::table::Table;
use crate::words::{number, quoted, unknown, Given, NoNumber, Words};
use crate::{files, print, End, Result};

pub fn run(mut words: Words) -> Result<()> {
    let (mut others, mut out, mut is_listed) = (Vec::new(), None, false);
    while let Some(word) = words.next()? {
        match word {
            Given::Other(word) => others.push(word),
            Given::Option(option) => match option.as_str() {
                "--out" => out = Some(words.out_file(&option)?),
                "--list" => is_listed = true,
                _ => return Err(unknown(&option)),
            },
        }
    }
    let longest = match &others[..] {
        [word] => longest(word)?,
        [] => return Err(End::Wrong("N is missing; see --help".into())),
        [..] => return Err(End::Wrong("N is one number; see --help".into())),
    };
    let no = |refusal: Refusal| End::Fail(refused(&format!("lists of up to {longest} members"), refusal));
    let mut bytes = vec![0; CASES_LENGTH];
    let written = write_cases(longest, &mut bytes).map_err(no)?;
    let list = match is_listed {
        true => table(&cases(longest).map_err(no)?)?.text() + "\n",
        false => String::new(),
    };
    if let Some(file) = out {
        files::write(&file, &bytes[..written])?;
    }
    print(&format!("{list}{} cases, {written} bytes\n", written / CASE_LENGTH))
}

/// The length has 64 bits at either width.
fn longest(word: &str) -> Result<u64> {
    number(word).map_err(|why| match why {
        NoNumber::Digits => {
            End::Wrong(format!("N is a number, decimal digits alone, not {}; see --help", quoted(word)))
        }
        NoNumber::Range => End::Wrong(format!("N is out of range: {}", crate::words::above::<u64>(word))),
    })
}

/// Each case, with what it composes to.
fn table(cases: &[Case]) -> Result<Table> {
    let row = |case: &Case| {
        let layout = for_repr_c_struct(None, case.packing(), &case.members())
            .map_err(|why| End::Fail(refused("a case", why.refusal)))?;
        let members: Vec<&str> = case.scalars().map(|scalar| SCALARS[scalar.code() as usize]).collect();
        let packing = case.packing().map_or("-".to_string(), |packing| packing.to_string());
        let size = Shape::from(layout).size().unwrap_or(0);
        Ok(vec![packing, size.to_string(), layout.align.to_string(), members.join(" ")])
    };
    let heads = &[("packing", false), ("size", false), ("align", false), ("members", true)];
    Ok(Table { heads, rows: cases.iter().map(row).collect::<Result<Vec<_>>>()? })
}
