//! Files that are read and written, and what is said where they cannot be.

use crate::words::quoted;
use crate::{cause, End, Result};
use std::fs::{self, File};
use std::io::{self, ErrorKind, Read};
use std::path::{Path, PathBuf};
use std::process;

/// As much as is read of a file. What is asked for has an end, and what has none must not fill the memory.
const MOST: u64 = 1 << 26;

/// The bytes of a file, or of standard input.
pub fn read(file: &str) -> Result<Vec<u8>> {
    let called = called(file);
    let mut source: Box<dyn Read> = match file {
        "-" => Box::new(io::stdin()),
        _ if Path::new(file).is_dir() => return Err(End::Fail(format!("{called} is a directory"))),
        _ => Box::new(File::open(file).map_err(|error| End::Fail(unopened(file, &error)))?),
    };
    let mut bytes = Vec::new();
    match source.by_ref().take(MOST + 1).read_to_end(&mut bytes) {
        Err(error) => Err(End::Fail(format!("{called}: {}", cause(&error)))),
        Ok(_) if bytes.len() as u64 > MOST => Err(End::Fail(format!("{called} has more than {MOST} bytes"))),
        Ok(_) => Ok(bytes),
    }
}

/// How a file that is read is called.
pub fn called(file: &str) -> String {
    match file {
        "-" => "standard input".to_string(),
        _ => quoted(file),
    }
}

fn unopened(file: &str, error: &io::Error) -> String {
    match error.kind() {
        ErrorKind::NotFound => format!("no file {}", quoted(file)),
        ErrorKind::PermissionDenied => format!("{} may not be read", quoted(file)),
        _ => format!("{}: {}", quoted(file), cause(error)),
    }
}

/// Writes a file whole or not at all: under another name beside it, which then becomes its own. What is no file, as a
/// pipe, is written to as it is.
pub fn write(file: &str, bytes: &[u8]) -> Result<()> {
    let written = match fs::metadata(file) {
        Ok(found) if found.is_dir() => return Err(End::Fail(format!("{} is a directory", quoted(file)))),
        Ok(found) if !found.is_file() => fs::write(file, bytes),
        Ok(found) if found.permissions().readonly() => Err(ErrorKind::PermissionDenied.into()),
        // Through a link, which stays.
        Ok(_) => fs::canonicalize(file).and_then(|path| replace(&path, bytes)),
        Err(_) => replace(Path::new(file), bytes),
    };
    written.map_err(|error| End::Fail(format!("{} cannot be written: {}", quoted(file), cause(&error))))
}

fn replace(path: &Path, bytes: &[u8]) -> io::Result<()> {
    let mut name = path.file_name().ok_or(ErrorKind::InvalidInput)?.to_os_string();
    name.push(format!(".{}.new", process::id()));
    let beside: PathBuf = path.with_file_name(name);
    let done = fs::write(&beside, bytes).and_then(|()| fs::rename(&beside, path));
    if done.is_err() {
        let _ = fs::remove_file(&beside);
    }
    done
}
