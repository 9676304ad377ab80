//! `lukaripe move`: a file of records to the other form.

use crate::words::{unknown, Given, Words};
use crate::{files, print, print_bytes, End, Result};
use lukaripe::{records_from_short_vec, records_to_short_vec, Refusal, Refused};
use lukaripe::{RECORD_LENGTH, SHORT_RECORD_LENGTH};

/// A move: how it is done, and the bytes of a record before it.
struct Way {
    moved: fn(&[u8]) -> Result<Vec<u8>, Refused>,
    record: usize,
}

const TO_SHORT: Way = Way { moved: records_to_short_vec, record: RECORD_LENGTH };
const FROM_SHORT: Way = Way { moved: records_from_short_vec, record: SHORT_RECORD_LENGTH };

pub fn run(mut words: Words) -> Result<()> {
    let (mut others, mut ways) = (Vec::new(), Vec::new());
    while let Some(word) = words.next()? {
        match word {
            Given::Other(word) => others.push(word),
            Given::Option(option) => match option.as_str() {
                "--to-short" => ways.push(TO_SHORT),
                "--from-short" => ways.push(FROM_SHORT),
                _ => return Err(unknown(&option)),
            },
        }
    }
    let [way] = &ways[..] else {
        return Err(End::Wrong("one of --to-short and --from-short is to be there; see --help".into()));
    };
    let [file, out] = &others[..] else {
        let why = if others.len() < 2 { "FILE or OUT is missing" } else { "FILE and OUT are one word each" };
        return Err(End::Wrong(format!("{why}; see --help")));
    };
    let records = files::read(file)?;
    let moved = (way.moved)(&records).map_err(|why| no(file, &records, why))?;
    if out == "-" {
        return print_bytes(&moved);
    }
    files::write(out, &moved)?;
    let count = records.len() / way.record;
    let called = if count == 1 { "record" } else { "records" };
    print(&format!("{count} {called}, {} bytes before and {} after\n", records.len(), moved.len()))
}

/// The line of a refusal. The length is that of the whole file.
fn no(file: &str, records: &[u8], why: Refused) -> End {
    let Refused { refusal, place } = why;
    let file = files::called(file);
    let (what, more) = match refusal {
        Refusal::RecordLength => (file, format!(": it has {}", crate::shape::bytes(records.len() as u128))),
        _ => (format!("record {place} of {file}"), String::new()),
    };
    End::Fail(format!("{what}: {refusal} (refusal {}){more}", refusal.number()))
}
