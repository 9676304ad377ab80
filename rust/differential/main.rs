//! Calls the exports of liblukaripe.a and the Rust that they were ported from on the same inputs, and compares.
//!
//! The numbers have 64 bits, or 32 by `--cfg bits32` (width.rs); the Rust is then one for i686, in a process of its
//! own. tools/differential builds and runs it, and its help says what the words mean. It stops at the first difference.
//! A run of the default number of inputs or more fails too where something that can come of a function never did.

mod answer;
mod cases;
mod describe;
mod exports;
mod full;
mod guarantee;
mod inputs;
mod kinds;
mod layouts;
mod lent;
mod lists;
mod moves;
mod plain_describe;
mod plain_full;
mod plain_places;
mod plain_rewrite;
mod plain_share;
mod plain_short;
mod random;
mod recorded;
mod rewrites;
mod rows;
mod runs;
mod shares;
mod shorts;
mod table;
mod width;

use answer::Answer;
use inputs::{Input, Plan, PHASES};
use recorded::Recorded;
use rows::{Row, Slot, LAYERS};
use std::process::ExitCode;
use std::time::Instant;

/// How many inputs are tried unless a number is named: enough for everything that can come of a function.
const CASES: u64 = 100_000_000;

struct Options {
    /// All inputs of all functions.
    cases: u64,
    seed: u64,
    only: Option<String>,
    record: Option<u64>,
}

fn rows() -> impl Iterator<Item = &'static Row> {
    LAYERS.iter().flat_map(|layer| layer.iter()).filter(|row| row.is_tried())
}

fn options() -> Result<Options, String> {
    let mut options = Options { cases: CASES, seed: 1, only: None, record: None };
    let mut words = std::env::args().skip(1);
    while let Some(name) = words.next() {
        let value = words.next().ok_or(format!("{name} takes a value"))?;
        let number = || value.parse::<u64>().map_err(|_| format!("{name}: no number: {value}"));
        match name.as_str() {
            "--cases" => options.cases = number()?,
            "--seed" => options.seed = number()?,
            "--record" => options.record = Some(number()?),
            "--only" if rows().any(|row| row.name == value) => options.only = Some(value),
            // Moves and short lists at 32 bits, and what has no export there.
            "--only" => return Err(format!("no function {value} at {} bits", width::BITS)),
            _ => return Err(format!("unknown word {name}")),
        }
    }
    Ok(options)
}

/// How many inputs were tried, and since when.
struct Progress {
    start: Instant,
    inputs: u64,
}

impl Progress {
    const STEP: u64 = 1 << 23;

    fn count(&mut self, row: &Row) {
        self.inputs += 1;
        if self.inputs % Progress::STEP == 0 {
            eprintln!("{} inputs, {:.1} million a second, at {}", self.inputs, self.rate(), row.name);
        }
    }

    fn rate(&self) -> f64 {
        self.inputs as f64 / self.start.elapsed().as_secs_f64() / 1e6
    }
}

/// What the Rust says. A panic that names no cause of document 01 is neither an answer nor a refusal.
fn rust(row: &Row, inputs: &[u64]) -> Result<Answer, String> {
    std::panic::catch_unwind(|| oracle::said(|| Ok((row.rust)(inputs))).unwrap_or_else(Answer::refused))
        .map_err(|_| "a panic that is no refusal".to_string())
}

/// Tries one input: the slot it belongs to and the answer that both sides gave, or what differs.
fn compare(row: &Row, slots: &[Slot], inputs: &[u64]) -> Result<(usize, Answer), String> {
    let ours = (row.ours)(inputs);
    let apart = (row.apart)(inputs);
    // The Rust has no alignment modifier, so the comparison with it leaves that out; it is looked at beside, below.
    let (compared, modifier) = row.without_modifier(ours);
    let (expected, given) = match apart {
        Some(answer) => (Ok(answer), ours),
        None => (rust(row, inputs), compared),
    };
    if expected != Ok(given) {
        let show = |answer: Answer| format!("refusal, then values {:?}", answer.numbers(row.values));
        let other = if apart.is_some() { "table:" } else { "Rust: " };
        let broken = ours.broken.map_or(String::new(), |what| format!(", and {what}"));
        return Err(format!("ours:  {}{broken}\n{other} {}", show(ours), expected.map_or_else(|panic| panic, show)));
    }
    if let (None, 0, Some(rule)) = (apart, ours.refusal, row.modifier) {
        if modifier != rule(inputs) {
            let [ours, rule] = [modifier, !modifier].map(|has| if has { "has it" } else { "has it not" });
            return Err(format!("the alignment modifier: our answer {ours}, by document 02 it {rule}"));
        }
    }
    let label = if apart.is_some() { "" } else { (row.label)(inputs, &ours) };
    match slots.iter().position(|slot| slot.holds(&ours, apart.is_some(), label)) {
        Some(at) => Ok((at, ours)),
        None => {
            Err(format!("both sides: {:?} {label}, which the function's row does not list", ours.numbers(row.values)))
        }
    }
}

/// The inputs with their names.
fn named(inputs: &[Input], mut case: &[u64]) -> String {
    let mut named = Vec::new();
    for (at, input) in inputs.iter().enumerate() {
        // Only the last has no length of its own.
        let len = if at + 1 == inputs.len() { case.len() } else { input.kind.good.len() };
        let (numbers, rest) = case.split_at(len);
        if input.kind.names.is_empty() {
            let words: Vec<String> = numbers.iter().map(u64::to_string).collect();
            named.push(format!("{} {}", input.name, words.join(" ")));
        } else {
            let words = input.kind.names.iter().zip(numbers).map(|(name, number)| format!("{name} {number}"));
            named.push(format!("{} ({})", input.name, words.collect::<Vec<String>>().join(", ")));
        }
        case = rest;
    }
    named.join(", ")
}

/// What a function was tried on: its slots and how many inputs came to each.
struct Tried<'a> {
    row: &'a Row,
    slots: Vec<Slot>,
    counts: Vec<u64>,
}

impl Tried<'_> {
    /// Prints the cells and gives the totals, compared and apart.
    fn report(&self) -> (u64, u64) {
        let (mut compared, mut apart) = (0, 0);
        for (at, cell) in self.row.cells.iter().enumerate().filter(|(_, cell)| cell.can_come()) {
            let of_cell = self.slots.iter().zip(&self.counts).filter(|(slot, _)| slot.cell == at);
            let count: u64 = of_cell.map(|(_, count)| count).sum();
            let columns = if cell.apart {
                apart += count;
                ["-".to_string(), count.to_string()]
            } else {
                compared += count;
                [count.to_string(), "-".to_string()]
            };
            line(self.row.name, &cell.to_string(), &columns[0], &columns[1]);
        }
        (compared, apart)
    }

    /// The slots that nothing came to.
    fn empty(&self) -> Vec<String> {
        let empty = self.slots.iter().zip(&self.counts).filter(|(_, count)| **count == 0);
        let mut empty: Vec<String> = empty.map(|(slot, _)| format!("{} {slot}", self.row.name)).collect();
        if self.is_runs() {
            let of_steps = runs::counted().into_iter().filter(|(_, count, _)| *count == 0);
            empty.extend(of_steps.map(|(outcome, ..)| format!("{}, each step {outcome}", self.row.name)));
        }
        let besides = self.besides().into_iter().filter(|(_, count)| *count == 0);
        empty.extend(besides.map(|(outcome, _)| format!("{}: {outcome}", self.row.name)));
        empty
    }

    /// What is counted besides: of a move how long its output was, and its records; of the full comparison and mode how
    /// they differ from the ported ones; of lists of counts how long they were, and their other orders; of descriptions
    /// what was accepted, and how deep; of those rewritten what was turned, and how long the output was.
    fn besides(&self) -> Vec<(String, u64)> {
        if self.row.name == "padding_of_counts" {
            return shares::counted();
        }
        if self.row.name == "read" {
            return describe::counted();
        }
        let rewritings = [&rewrites::LENGTHEN, &rewrites::SHORTEN];
        if let Some(rewriting) = rewritings.into_iter().find(|rewriting| rewriting.name == self.row.name) {
            return rewrites::counted(rewriting);
        }
        let way = [&moves::TO, &moves::FROM].into_iter().find(|way| way.name == self.row.name);
        way.map_or_else(|| full::counted(self.row.name), moves::counted)
    }

    /// Whether its inputs are runs of additions, of which each step is counted too.
    fn is_runs(&self) -> bool {
        self.row.number == 0
    }
}

/// A line of the report.
fn line(function: &str, cell: &str, compared: &str, apart: &str) {
    println!("{function:<42}{cell:<46}{compared:>12}{apart:>12}");
}

/// Tries one function on so many inputs.
fn run<'a>(row: &'a Row, options: &Options, cases: u64, progress: &mut Progress) -> Result<Tried<'a>, String> {
    // Its own numbers, whichever functions come before it.
    let seed = options.seed.wrapping_add(row.number << 32);
    let plan = Plan { inputs: row.inputs.concat(), pages: row.all_pages(), aim: row.aim, seed, cases };
    let mut left = cases;
    let slots = row.slots();
    let mut counts = vec![0; slots.len()];
    let lines = options.record.filter(|_| row.number != 0);
    let mut recorded = lines.map(|lines| Recorded::new(row, slots.len(), seed, lines));
    for phase in PHASES {
        plan.each(phase, left, &mut |case| {
            left -= 1;
            progress.count(row);
            let (slot, answer) = oracle::compared(|| compare(row, &slots, case)).map_err(|what| {
                let inputs = named(&plan.inputs, case);
                format!("DIFFERENCE in {} ({phase:?})\nof:    {inputs}\n{what}", row.name)
            })?;
            counts[slot] += 1;
            if let Some(recorded) = &mut recorded {
                recorded.see(phase, slot, case, &answer);
            }
            Ok(())
        })?;
    }
    if let Some(recorded) = recorded {
        recorded.print();
    }
    Ok(Tried { row, slots, counts })
}

fn report(tried: &[Tried], seed: u64, progress: &Progress) {
    line("function", "came to", "compared", "table only");
    let (mut compared, mut apart) = (0, 0);
    for one in tried {
        let totals = one.report();
        compared += totals.0;
        apart += totals.1;
    }
    println!("{compared} inputs compared with the Rust, and apart {apart} checked against the documents' table");
    if tried.iter().any(Tried::is_runs) {
        report_steps();
    }
    for one in tried {
        for (outcome, count) in one.besides() {
            line(&format!("{}, besides", one.row.name), &outcome, "-", &count.to_string());
        }
    }
    println!("seed {seed}, {:.1} million inputs a second", progress.rate());
}

/// Each step of the runs of additions, of which the lines above have the last one.
fn report_steps() {
    let (mut compared, mut apart) = (0, 0);
    for (outcome, count, by_the_rust) in runs::counted() {
        if by_the_rust {
            compared += count;
            line("working, each step", &outcome, &count.to_string(), "-");
        } else {
            apart += count;
            line("working, each step", &outcome, "-", &count.to_string());
        }
    }
    println!("{compared} steps of runs compared with the Rust, and {apart} apart");
}

fn all(options: &Options) -> Result<(), String> {
    let rows: Vec<&Row> = rows().filter(|row| options.only.as_ref().is_none_or(|only| only == row.name)).collect();
    let mut progress = Progress { start: Instant::now(), inputs: 0 };
    let mut tried = Vec::new();
    for (at, row) in rows.iter().enumerate() {
        eprintln!("{}", row.name);
        // As many for each, and of what is left over one for each of the first.
        let (share, over) = (options.cases / rows.len() as u64, options.cases % rows.len() as u64);
        let cases = share + u64::from((at as u64) < over);
        tried.push(run(row, options, cases, &mut progress)?);
    }
    if options.record.is_none() {
        report(&tried, options.seed, &progress);
    }
    empty_cells(&tried, options.cases)
}

/// The functions that are not tried for want of an export.
fn left_out() -> Vec<String> {
    let all = LAYERS.iter().flat_map(|layer| layer.iter()).filter(|row| row.missing().next().is_some());
    all.map(|row| format!("{}, left out: no {}", row.name, row.missing().collect::<Vec<_>>().join(", "))).collect()
}

/// What nothing came to is a fault, unless the inputs were fewer than it takes to come to everything.
fn empty_cells(tried: &[Tried], cases: u64) -> Result<(), String> {
    const SHOWN: usize = 3;
    let left_out = left_out();
    left_out.iter().for_each(|what| eprintln!("{what}"));
    if !left_out.is_empty() && cases >= CASES {
        return Err(format!("{} functions left out", left_out.len()));
    }
    let empty: Vec<String> = tried.iter().flat_map(Tried::empty).collect();
    if empty.is_empty() {
        return Ok(());
    }
    if cases >= CASES {
        return Err(format!("{} cells empty:\n{}", empty.len(), empty.join("\n")));
    }
    eprintln!("{} cells empty, as: {}", empty.len(), empty[..empty.len().min(SHOWN)].join("; "));
    Ok(())
}

/// At the end of a run, and where it ended early too, since a difference is one of settled answers.
fn settle(ran: Result<(), String>, report: bool) -> Result<(), String> {
    match (ran, oracle::settled()) {
        (Ok(()), Ok(answered)) => {
            if report && answered > 0 {
                println!("{answered} calls of the Rust answered by a program for {} bits, as here", width::BITS);
            }
            Ok(())
        }
        (Err(difference), Err(other)) => Err(format!("{difference}\n{other}")),
        (ran, settled) => ran.and(settled.map(|_| ())),
    }
}

fn main() -> ExitCode {
    let ran = options().and_then(|options| settle(all(&options), options.record.is_none()));
    match ran {
        Ok(()) => ExitCode::SUCCESS,
        Err(message) => {
            eprintln!("{message}");
            ExitCode::FAILURE
        }
    }
}
