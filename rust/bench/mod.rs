//! How long the exports take beside the Rust that they were ported from; with `--cfg bits32`, those of 32 bits beside
//! those of 64. tools/bench builds and runs it.
//!
//! Beside the Rust three sides are called on the same inputs, through pointers: the export; the Rust behind the C
//! interface, with the export's refusals and the same answer, which the same code calls; and the Rust as it is, in its
//! own types. At 32 bits there are two, the exports of either width, which the same sources call. Rounds alternate, in
//! both orders, and the best of each side counts.

#[cfg(bits32)]
mod bits32;
mod bits64;
#[cfg(not(bits32))]
mod describe;
mod descriptions;
#[cfg(not(bits32))]
mod full;
#[cfg(not(bits32))]
mod plain;
#[path = "../differential/random.rs"]
mod random;
mod row;
mod sets;
#[cfg(not(bits32))]
mod tested;
#[path = "../differential/width.rs"]
mod width;

#[cfg(not(bits32))]
use bits64::exports;
use row::{Given, Inputs, SideOn};
use sets::{Set, SETS};
use std::hint::black_box;
use std::process::ExitCode;
use std::time::{Duration, Instant};

const USAGE: &str = "\
usage: bench --times ROUNDS [FUNCTION]
       bench --counts [FUNCTION]
  --times   print for each function and set of inputs the nanoseconds of a call of each side, parted by |: the best of
            so many rounds. The sides are the export, the Rust as it is and the Rust with the refusals tested; or the
            exports of 32 and of 64 bits
  --counts  run each loop a fixed number of times, for a program that counts instructions, and print for each its
            function, set, side and calls
A function is one of rust/bench/rows.rs, by the name there or the part of it before the comma.";

#[cfg(not(bits32))]
const SIDES: [&str; 3] = ["export", "rust", "tested"];
#[cfg(bits32)]
const SIDES: [&str; 2] = ["32", "64"];

/// A round takes about so long.
const ROUND: Duration = Duration::from_micros(50);
/// How often the inputs are gone through by `--counts`.
const COUNTED: u64 = 8;

/// Goes through the cases, as often as said. The compiler does not see which function is called, or not what it does.
#[inline(never)]
fn go_through<C, F, T>(cases: &[C], times: u64, function: F, call: impl Fn(F, &C) -> T)
where
    F: Copy,
{
    let function = black_box(function);
    for _ in 0..times {
        for case in cases {
            black_box(call(function, black_box(case)));
        }
    }
}

fn timed(side: &SideOn, times: u64) -> Duration {
    let start = Instant::now();
    (side.go)(times);
    start.elapsed()
}

/// How often a side goes through the cases in a round.
fn times_in_a_round(side: &SideOn) -> u64 {
    let mut times = 1;
    while timed(side, times) < ROUND {
        times *= 2;
    }
    times
}

/// The best time of a call of each side, in nanoseconds.
fn best(inputs: &Inputs, rounds: u64) -> [Option<f64>; SIDES.len()] {
    let sides = &inputs.sides;
    let times: Vec<Option<u64>> = sides.iter().map(|side| side.as_ref().map(times_in_a_round)).collect();
    let mut best = [None; SIDES.len()];
    for round in 0..rounds {
        for turn in 0..SIDES.len() {
            let at = if round % 2 == 0 { turn } else { SIDES.len() - 1 - turn };
            if let (Some(side), Some(times)) = (&sides[at], times[at]) {
                let calls = times * inputs.expected.len() as u64;
                let a_call = timed(side, times).as_secs_f64() * 1e9 / calls as f64;
                best[at] = Some(best[at].map_or(a_call, |least: f64| least.min(a_call)));
            }
        }
    }
    best
}

/// A function by its name, with the inputs of a set for all sides; None where it refuses nothing.
struct Function {
    name: &'static str,
    on: Box<dyn Fn(Set) -> Option<Inputs>>,
}

#[cfg(not(bits32))]
fn functions() -> impl Iterator<Item = Function> {
    bits64::rows().into_iter().map(|row| Function { name: row.name, on: Box::new(move |set| row.on(set)) })
}

/// The rows of both widths are the same, in the same order.
#[cfg(bits32)]
fn functions() -> impl Iterator<Item = Function> {
    let both = bits32::rows().into_iter().zip(bits64::rows());
    both.map(|(row, wide)| Function {
        name: row.name,
        on: Box::new(move |set| {
            let mut inputs = row.on(set)?;
            inputs.sides.extend(wide.on(set)?.sides);
            Some(inputs)
        }),
    })
}

impl Function {
    /// By the name of its row, or the part of it before the comma.
    fn is_named(&self, name: &str) -> bool {
        self.name == name || self.name.split(',').next() == Some(name)
    }

    /// Whether the sides give the same answer, and not the same refusal alone: at two widths a sum that overflows at
    /// either is of other numbers, and so are the layouts of some scalars.
    fn gives_the_same(&self, set: Set) -> bool {
        !width::NARROW || set != Set::Refused && !self.is_named("scalar") && !self.is_named("read")
    }

    /// The inputs of a set, where all sides give what they should.
    fn inputs(&self, set: Set) -> Result<Option<Inputs>, String> {
        let Some(inputs) = (self.on)(set) else { return Ok(None) };
        for (at, number) in inputs.expected.iter().enumerate() {
            let given = inputs.sides.iter().flatten().filter_map(|side| Some(side.given.as_ref()?(at)));
            let given: Vec<Given> = given.collect();
            let refusals: Vec<u64> = given.iter().map(|given| given.refusal).collect();
            let differ = self.gives_the_same(set) && given[0] != given[1];
            if differ || refusals.iter().any(|refusal| refusal != number) {
                let (name, set, differ) = (self.name, set.name(), if differ { ", answers that differ" } else { "" });
                let found = format!("found {refusals:?}{differ}");
                return Err(format!("{name}, {set}, case {at}: expected {number} of both sides, {found}"));
            }
        }
        Ok(Some(inputs))
    }
}

fn times(rounds: u64, functions: &[Function]) -> Result<(), String> {
    for function in functions {
        for set in SETS {
            if let Some(inputs) = function.inputs(set)? {
                let best = best(&inputs, rounds).map(|time| time.map_or(String::new(), |time| time.to_string()));
                println!("{}|{}|{}", function.name, set.name(), best.join("|"));
            }
        }
    }
    Ok(())
}

fn counts(functions: &[Function]) -> Result<(), String> {
    for function in functions {
        for set in SETS {
            if let Some(inputs) = function.inputs(set)? {
                for (name, side) in SIDES.into_iter().zip(&inputs.sides) {
                    if let Some(side) = side {
                        (side.go)(COUNTED);
                        let calls = COUNTED * inputs.expected.len() as u64;
                        println!("{}|{}|{name}|{calls}", function.name, set.name());
                    }
                }
            }
        }
    }
    Ok(())
}

fn run() -> Result<(), String> {
    let words: Vec<String> = std::env::args().skip(1).collect();
    let words: Vec<&str> = words.iter().map(String::as_str).collect();
    let (rounds, only) = match words[..] {
        ["--times", rounds, ref only @ ..] => (Some(rounds.parse().map_err(|_| USAGE)?), only),
        ["--counts", ref only @ ..] => (None, only),
        _ => return Err(USAGE.to_string()),
    };
    let named = |function: &Function| only.is_empty() || function.is_named(only[0]);
    let functions: Vec<Function> = functions().filter(named).collect();
    if only.len() > 1 {
        return Err(USAGE.to_string());
    }
    if functions.is_empty() {
        return Err(format!("no function {}", only[0]));
    }
    match rounds {
        Some(rounds) => times(rounds, &functions),
        None => counts(&functions),
    }
}

pub fn main() -> ExitCode {
    match run() {
        Ok(()) => ExitCode::SUCCESS,
        Err(message) => {
            eprintln!("{message}");
            ExitCode::from(2)
        }
    }
}
