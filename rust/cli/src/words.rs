//! Reading of words: options with their values, and numbers. Each fault is one line.

use crate::{End, Result};
use std::ffi::OsString;

/// A word of the command line, which must be text.
pub fn text_of(word: OsString) -> Result<String> {
    word.into_string().map_err(|word| End::Wrong(format!("{} is no text", quoted(&word.to_string_lossy()))))
}

/// A word between quotes, on one line whatever it has.
pub fn quoted(word: &str) -> String {
    let shown = |letter: char| match letter.is_control() {
        true => letter.escape_default().to_string(),
        false => letter.to_string(),
    };
    format!("'{}'", word.chars().map(shown).collect::<String>())
}

/// Why a number cannot be read.
#[derive(Debug, PartialEq, Eq)]
pub enum NoNumber {
    /// It is not decimal digits alone.
    Digits,
    /// It is above the greatest of its width.
    Range,
}

/// Decimal digits alone, those of ASCII, up to the greatest number of the width.
pub fn number<N: TryFrom<u64>>(word: &str) -> Result<N, NoNumber> {
    if word.is_empty() || !word.bytes().all(|digit| digit.is_ascii_digit()) {
        return Err(NoNumber::Digits);
    }
    let number: u64 = word.parse().map_err(|_| NoNumber::Range)?;
    N::try_from(number).map_err(|_| NoNumber::Range)
}

/// The greatest number of a width.
pub fn most<N>() -> String {
    format!("2^{} - 1", 8 * size_of::<N>())
}

/// Why a number is none of its width.
pub fn above<N>(word: &str) -> String {
    format!("{word} is above {}", most::<N>())
}

/// The width of the words that a command works with.
#[derive(Debug, PartialEq, Eq)]
pub enum Width {
    Bits64,
    Bits32,
}

/// The width that `--width` asks for, wherever it stands, and the other words.
pub fn take_width(words: &[String]) -> Result<(Width, Vec<String>)> {
    let (mut width, mut others) = (Width::Bits64, Vec::new());
    let mut rest = words.iter();
    while let Some(word) = rest.next() {
        let value = match word.strip_prefix("--width") {
            Some("") => rest.next().map(String::as_str),
            Some(value) if value.starts_with('=') => Some(&value[1..]),
            _ => {
                others.push(word.clone());
                continue;
            }
        };
        width = match value {
            Some("64") => Width::Bits64,
            Some("32") => Width::Bits32,
            Some(other) => {
                return Err(End::Wrong(format!("--width takes 64 or 32, not {}; see --help", quoted(other))))
            }
            None => return Err(End::Wrong("--width takes 64 or 32; see --help".into())),
        };
    }
    Ok((width, others))
}

/// What is said of an option that a command has not.
pub fn unknown(option: &str) -> End {
    End::Wrong(format!("unknown word {}; see --help", quoted(option)))
}

/// So many types, of the words that are no options. One without quotes would be several words.
pub fn types<const N: usize>(others: Vec<String>) -> Result<[String; N]> {
    let found = others.len();
    others.try_into().map_err(|_| match found < N {
        true => End::Wrong("a TYPE is missing; see --help".into()),
        false => End::Wrong("a TYPE is one word, in quotes; see --help".into()),
    })
}

/// The words of a command, taken one by one.
pub struct Words {
    rest: std::vec::IntoIter<String>,
    /// What stood behind the `=` of an option.
    value: Option<String>,
}

/// A word is an option, as `--align`, or another.
pub enum Given {
    Option(String),
    Other(String),
}

impl Words {
    pub fn new(words: Vec<String>) -> Words {
        Words { rest: words.into_iter(), value: None }
    }

    /// The next word. An option is parted from its value where that stands behind an `=`.
    pub fn next(&mut self) -> Result<Option<Given>> {
        if self.value.is_some() {
            return Err(End::Wrong("an option takes no value; see --help".into()));
        }
        let Some(word) = self.rest.next() else { return Ok(None) };
        if !word.starts_with('-') || word == "-" {
            return Ok(Some(Given::Other(word)));
        }
        match word.split_once('=') {
            Some((name, value)) if word.starts_with("--") => {
                self.value = Some(value.to_string());
                Ok(Some(Given::Option(name.to_string())))
            }
            _ => Ok(Some(Given::Option(word))),
        }
    }

    /// The value of an option. It may be any word but an empty one.
    pub fn value(&mut self, option: &str, what: &str) -> Result<String> {
        let value = self.value.take().or_else(|| self.rest.next());
        match value {
            Some(value) if !value.is_empty() => Ok(value),
            Some(value) => Err(End::Wrong(format!("{option} takes {what}, not {}; see --help", quoted(&value)))),
            None => Err(End::Wrong(format!("{option} takes {what}; see --help"))),
        }
    }

    /// The value of an option that is the name of a file, or `-`.
    pub fn file(&mut self, option: &str) -> Result<String> {
        self.value(option, "a word, FILE")
    }

    /// The value of an option that is the name of a file that is written, which standard output is not.
    pub fn out_file(&mut self, option: &str) -> Result<String> {
        match self.file(option)? {
            file if file == "-" => Err(End::Wrong(format!("{option} takes the name of a file, not '-'; see --help"))),
            file => Ok(file),
        }
    }

    /// The value of an option that is a number.
    pub fn number<N: TryFrom<u64>>(&mut self, option: &str) -> Result<N> {
        self.numbered(option, "a number", 0)
    }

    /// The value of an option that is a number, 1 or more.
    pub fn count<N: TryFrom<u64>>(&mut self, option: &str) -> Result<N> {
        self.numbered(option, "a number, 1 or more", 1)
    }

    fn numbered<N: TryFrom<u64>>(&mut self, option: &str, what: &str, least: u64) -> Result<N> {
        let value = self.value(option, what)?;
        match (number::<N>(&value), number::<u64>(&value)) {
            (Ok(given), Ok(number)) if number >= least => Ok(given),
            (Err(NoNumber::Range), _) => Err(End::Wrong(format!("{option} is out of range: {}", above::<N>(&value)))),
            _ => Err(End::Wrong(format!("{option} takes {what}, not {}; see --help", quoted(&value)))),
        }
    }
}

#[cfg(test)]
mod tests {
    use super::*;

    #[test]
    fn numbers() {
        assert_eq!(number("0"), Ok(0_u64));
        assert_eq!(number("007"), Ok(7_u32));
        assert_eq!(number("18446744073709551615"), Ok(u64::MAX));
        assert_eq!(number::<u64>("00018446744073709551616"), Err(NoNumber::Range));
        assert_eq!(number("4294967295"), Ok(u32::MAX));
        assert_eq!(number::<u32>("4294967296"), Err(NoNumber::Range));
        assert_eq!(number::<u32>("18446744073709551616"), Err(NoNumber::Range));
        for word in ["", "+5", "-5", " 5", "1_000", "0x10", "５"] {
            assert_eq!(number::<u64>(word), Err(NoNumber::Digits), "{word}");
        }
        assert_eq!(above::<u32>("4294967296"), "4294967296 is above 2^32 - 1");
    }

    #[test]
    fn widths() {
        let taken = |words: &[&str]| {
            let words: Vec<String> = words.iter().map(|word| word.to_string()).collect();
            take_width(&words).map_err(|end| match end {
                End::Wrong(said) => said,
                _ => String::new(),
            })
        };
        let others = |words: &[&str]| words.iter().map(|word| word.to_string()).collect::<Vec<_>>();
        assert_eq!(taken(&["u8", "--hex"]), Ok((Width::Bits64, others(&["u8", "--hex"]))));
        assert_eq!(taken(&["--width", "32", "u8"]), Ok((Width::Bits32, others(&["u8"]))));
        assert_eq!(taken(&["u8", "--width=32", "--widths"]), Ok((Width::Bits32, others(&["u8", "--widths"]))));
        assert_eq!(taken(&["--width=32", "--width", "64"]), Ok((Width::Bits64, vec![])));
        assert_eq!(taken(&["--width", "33"]), Err("--width takes 64 or 32, not '33'; see --help".into()));
        assert_eq!(taken(&["--width="]), Err("--width takes 64 or 32, not ''; see --help".into()));
        assert_eq!(taken(&["--width"]), Err("--width takes 64 or 32; see --help".into()));
    }

    #[test]
    fn quotes_keep_one_line() {
        assert_eq!(quoted("a\nb\u{1b}"), "'a\\nb\\u{1b}'");
        assert_eq!(quoted("[é]"), "'[é]'");
    }
}
