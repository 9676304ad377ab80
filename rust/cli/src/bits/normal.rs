//! `lukaripe normal`: what of a run of elements its sizes show.

use super::form::{table, Form};
use super::member::refused;
use super::types::run_of;
use crate::words::{quoted, types, unknown, Given, Words};
use crate::{print, End, Result};

pub fn run(mut words: Words) -> Result<()> {
    let mut others = Vec::new();
    while let Some(word) = words.next()? {
        match word {
            Given::Other(word) => others.push(word),
            Given::Option(option) => return Err(unknown(&option)),
        }
    }
    let [word] = types(others)?;
    let run = run_of(&word, "normal")?;
    let forms = [Form::written(run), Form::normal(run)];
    match &forms {
        [_, Ok(normal)] => {
            let table = table(&[("composed", &forms[0]), ("normal", &forms[1])]).text();
            print(&format!("{table}\nsize with n elements: {}\n", normal.formula()))
        }
        [_, Err(refusal)] => Err(End::Fail(refused(&quoted(&word), *refusal))),
    }
}
