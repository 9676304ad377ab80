//! The command-line program over the wrapper crate. The first word names a command, and each command has a file.

// The sources of bits/ are compiled at both widths, and what is a conversion at one is none at the other.
#![allow(clippy::duplicate_mod, clippy::useless_conversion)]

mod bar;
mod bits32;
mod bits64;
mod columns;
mod description;
mod files;
mod formula;
mod moves;
mod record;
mod scalars;
mod scale;
mod shape;
mod svg;
mod table;
mod text;
mod words;

use std::ffi::OsString;
use std::io::{self, ErrorKind, Write};
use std::process::ExitCode;
use words::{quoted, take_width, text_of, Width, Words};

/// Why the program ends early.
pub enum End {
    /// The words are wrong: status 2.
    Wrong(String),
    /// What was asked for cannot be given: status 1.
    Fail(String),
    /// Nobody reads the output: status 1, and nothing is said.
    Unread,
}

type Result<T, E = End> = std::result::Result<T, E>;

/// What a command does with the words behind its name.
type Run = fn(Words) -> Result<()>;

/// A command: its name, its help, and what it does with words of 64 bits, and of 32.
struct Command {
    name: &'static str,
    help: &'static str,
    at64: Run,
    at32: Run,
}

/// A command that has a file of its own name in bits/.
macro_rules! command {
    ($name:ident) => {
        Command {
            name: stringify!($name),
            help: include_str!(concat!("../help/", stringify!($name), ".txt")),
            at64: bits64::$name::run,
            at32: bits32::$name::run,
        }
    };
}

const COMMANDS: &[Command] = &[
    command!(layout),
    command!(cast),
    command!(convert),
    command!(normal),
    command!(agree),
    command!(share),
    // Moves choose no width.
    Command { name: "move", help: include_str!("../help/move.txt"), at64: moves::run, at32: moves::run },
    command!(describe),
    command!(rewrite),
    command!(cases),
];

fn main() -> ExitCode {
    let (status, said) = match begin(std::env::args_os().skip(1).collect()) {
        Ok(()) => return ExitCode::SUCCESS,
        Err(End::Unread) => return ExitCode::from(1),
        Err(End::Wrong(said)) => (2, said),
        Err(End::Fail(said)) => (1, said),
    };
    // Where standard error is closed too there is nobody to tell.
    let _ = writeln!(io::stderr(), "lukaripe: {said}");
    ExitCode::from(status)
}

fn begin(words: Vec<OsString>) -> Result<()> {
    let words = words.into_iter().map(text_of).collect::<Result<Vec<_>>>()?;
    let Some((first, rest)) = words.split_first() else {
        return Err(End::Wrong("a command is missing; see --help".into()));
    };
    if is_help(first) {
        return print(include_str!("../help/lukaripe.txt"));
    }
    let Some(command) = COMMANDS.iter().find(|command| command.name == first) else {
        return Err(End::Wrong(format!("no command {}; see --help", quoted(first))));
    };
    if rest.iter().any(|word| is_help(word)) {
        return print(command.help);
    }
    let (width, others) = take_width(rest)?;
    let run = match width {
        Width::Bits64 => command.at64,
        Width::Bits32 => command.at32,
    };
    run(Words::new(others))
}

fn is_help(word: &str) -> bool {
    word == "--help" || word == "-h"
}

/// Writes to standard output, all of it at once.
pub fn print(text: &str) -> Result<()> {
    print_bytes(text.as_bytes())
}

pub fn print_bytes(bytes: &[u8]) -> Result<()> {
    let mut out = io::stdout().lock();
    out.write_all(bytes).and_then(|()| out.flush()).map_err(|error| match error.kind() {
        ErrorKind::BrokenPipe => End::Unread,
        _ => End::Fail(format!("standard output: {}", cause(&error))),
    })
}

/// What the system says, without its number.
pub fn cause(error: &io::Error) -> String {
    let said = error.to_string();
    said.split(" (os error").next().unwrap_or(&said).to_string()
}
