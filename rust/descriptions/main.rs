//! Reads every short run of the bytes that matter as a description, by the export and by the plain text of requests 4
//! and 8 of document 02, and compares layouts, refusals and places; so does it with what each is rewritten to, both
//! ways. tools/descriptions builds and runs it.

#[path = "../lukaripe/src/exports.rs"]
mod exports;
#[path = "../differential/plain_describe.rs"]
mod plain_describe;
#[path = "../differential/plain_rewrite.rs"]
mod plain_rewrite;
#[path = "../differential/width.rs"]
mod width;

use exports::*;
use oracle::Layout;
use plain_describe::At;
use plain_rewrite::{structs, Way};
use std::collections::BTreeMap;
use std::process::ExitCode;

/// Codes and what is next to them, the tags and what is next to those, and powers about 2^29 and 2^63.
const BYTES: [u8; 18] = [0, 1, 2, 3, 8, 9, 15, 16, 17, 18, 19, 20, 30, 31, 32, 64, 65, 255];

fn ours(description: &[u8]) -> Result<Layout, At> {
    // SAFETY: the bytes are as many as said.
    let Told { refusal, values: [place, words @ ..] } =
        unsafe { lukaripe_read(description.as_ptr(), description.len()) };
    match refusal {
        0 => Ok(words),
        number => Err((number, place as usize)),
    }
}

/// More bytes than a rewritten run has, with others behind them.
const ROOM: usize = 64;
const OTHER: u8 = 0xa5;

type Export = unsafe extern "C" fn(*const u8, usize, *mut u8, usize) -> Told<2>;

/// What the export writes into so many bytes; None where it changes one that it may not.
fn ours_rewritten(by: Export, description: &[u8], out_len: usize) -> Option<Result<Vec<u8>, At>> {
    let mut out = [OTHER; ROOM];
    // SAFETY: the bytes are as many as said.
    let Told { refusal, values: [place, written] } =
        unsafe { by(description.as_ptr(), description.len(), out.as_mut_ptr(), out_len) };
    let (result, rest) = out.split_at(written as usize);
    if rest.iter().any(|byte| *byte != OTHER) {
        return None;
    }
    Some(match refusal {
        0 => Ok(result.to_vec()),
        number => Err((number, place as usize)),
    })
}

/// A description that is read is rewritten as by the plain text, with room for it and with one byte less, and back
/// where it has no struct that stays; any other is refused alike.
fn check_rewritten(description: &[u8], read: &Result<Layout, At>) -> Result<(), String> {
    let ways = [
        (Way::Lengthen, lukaripe_lengthen_counts as Export, lukaripe_shorten_counts as Export),
        (Way::Shorten, lukaripe_shorten_counts, lukaripe_lengthen_counts),
    ];
    for (way, by, back) in ways {
        let check = |out_len, plain: Result<Vec<u8>, At>| {
            let ours = ours_rewritten(by, description, out_len);
            if ours.as_ref() == Some(&plain) {
                return Ok(());
            }
            Err(format!("DIFFERENCE in {description:?} into {out_len} bytes\nours:  {ours:?}\nplain: {plain:?}"))
        };
        if let Err(refused) = read {
            check(ROOM, Err(*refused))?;
            continue;
        }
        let plain = plain_rewrite::rewritten(way, description, ROOM);
        let needed = plain.as_ref().map_or(description.len(), Vec::len);
        check(needed - 1, plain_rewrite::rewritten(way, description, needed - 1))?;
        check(needed, plain.clone())?;
        let all_turned = structs(description).iter().all(|(_, long)| *long == (way == Way::Shorten));
        if let (Ok(written), true) = (plain, all_turned) {
            if ours_rewritten(back, &written, ROOM) != Some(Ok(description.to_vec())) {
                return Err(format!("DIFFERENCE: {description:?} does not come back from {written:?}"));
            }
        }
    }
    Ok(())
}

/// How often each refusal came, and by 0 none.
type Came = BTreeMap<u64, u64>;

/// Whether only the end of a description is missing. The export must make of it what the plain text does.
fn is_cut(description: &[u8], came: &mut Came) -> Result<bool, String> {
    let (ours, plain) = (ours(description), plain_describe::read(description));
    if ours != plain {
        return Err(format!("DIFFERENCE in {description:?}\nours:  {ours:?}\nplain: {plain:?}"));
    }
    check_rewritten(description, &ours)?;
    *came.entry(ours.map_or_else(|(number, _)| number, |_| 0)).or_default() += 1;
    Ok(ours == Err((33, description.len())))
}

/// Every run of so many bytes.
fn every(length: u32, came: &mut Came) -> Result<(), String> {
    let mut run = vec![BYTES[0]; length as usize];
    for number in 0..(BYTES.len() as u64).pow(length) {
        let mut digits = number;
        for byte in &mut run {
            *byte = BYTES[(digits % BYTES.len() as u64) as usize];
            digits /= BYTES.len() as u64;
        }
        is_cut(&run, came)?;
    }
    Ok(())
}

/// Every longer run up to this length that begins so, where no beginning of it was refused but by its end. What begins
/// with another is refused alike, or by 38, which the runs above show.
fn longer(run: &mut Vec<u8>, length: usize, came: &mut Came) -> Result<(), String> {
    for byte in BYTES {
        run.push(byte);
        if is_cut(run, came)? && run.len() < length {
            longer(run, length, came)?;
        }
        run.pop();
    }
    Ok(())
}

fn all(every_length: u32, longest: usize) -> Result<(), String> {
    let mut came = Came::new();
    for length in 0..=every_length {
        every(length, &mut came)?;
    }
    report(&format!("every run of up to {every_length} of {} bytes", BYTES.len()), &came);
    let mut came = Came::new();
    longer(&mut Vec::new(), longest, &mut came)?;
    report(&format!("runs of up to {longest} whose reading goes on to their end"), &came);
    Ok(())
}

fn report(what: &str, came: &Came) {
    let total: u64 = came.values().sum();
    let each: Vec<String> = came.iter().map(|(number, count)| format!("{count} {}", named(*number))).collect();
    println!("{what}: {total}, of which {}", each.join(", "));
}

fn named(number: u64) -> String {
    match number {
        0 => "accepted".to_string(),
        number => format!("by {number}"),
    }
}

fn main() -> ExitCode {
    let lengths: Vec<u32> = std::env::args().skip(1).map(|word| word.parse().expect("a length")).collect();
    match all(lengths[0], lengths[1] as usize) {
        Ok(()) => ExitCode::SUCCESS,
        Err(what) => {
            eprintln!("{what}");
            ExitCode::FAILURE
        }
    }
}
