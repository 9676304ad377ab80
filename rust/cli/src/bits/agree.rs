//! `lukaripe agree`: whether two runs of elements have the same size at every count.

use super::form::{table, Form};
use super::member::refused;
use super::sizes::{first_difference, Difference};
use super::types::run_of;
use crate::words::{types, unknown, Given, Words};
use crate::{print, End, Result};

pub fn run(mut words: Words) -> Result<()> {
    let mut others = Vec::new();
    while let Some(word) = words.next()? {
        match word {
            Given::Other(word) => others.push(word),
            Given::Option(option) => return Err(unknown(&option)),
        }
    }
    let [one, other] = types(others)?;
    let (one, other) = (run_of(&one, "agree")?, run_of(&other, "agree")?);
    let agree = one.sizes_agree(other).map_err(|refusal| End::Fail(refused("the sizes", refusal)))?;
    let answer = match agree {
        true => "yes: the sizes are equal at every count".to_string(),
        false => match first_difference(one, other, Some) {
            Some(Difference { counts: [count, _], sizes: [one, other] }) => {
                format!("no: at count {count} the sizes are {one} and {other}")
            }
            None => "no: the sizes are not equal at every count".to_string(),
        },
    };
    let forms = [Form::normal(one), Form::normal(other)];
    let table = table(&[("one", &forms[0]), ("other", &forms[1])]).text();
    print(&format!("{answer}\n\nnormal forms:\n{table}"))
}
