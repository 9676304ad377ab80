//! Runs of additions to a working layout, of request 14 of document 02. After each step the lent words must be the
//! composition of the members accepted so far, and what was refused must be refused as the composition refuses that
//! member next, without a word altered.
//!
//! A case holds a run as numbers. A step is how it is made, then, where other words are lent than the working layout's,
//! those six, and then the member's bytes as `lent` holds them. By value they are as many as a record's.

use crate::answer::Answer;
use crate::exports::*;
use crate::layouts;
use crate::lent::{alters, bytes, held, reads, records, RECORD};
use crate::lists::{self, MEMBERS};
use crate::random::Random;
use crate::table::{self, first, has_modifier};
use crate::width::{M, NARROW};
use oracle::{said, Layout};
use std::collections::BTreeMap;
use std::slice;
use std::sync::Mutex;

/// The most steps of a run.
const MOST: u64 = 8;

// How a step is made is the sum of these.
const BY_VALUE: u64 = 0;
const BY_RECORD: u64 = 1;
const OTHERS_LENT: u64 = 2;

struct Step<'a> {
    by_record: bool,
    /// What is lent in place of the working layout. It is no layout, so that the step is refused.
    others: Option<Layout>,
    member: &'a [u64],
}

fn steps(mut run: &[u64]) -> Vec<Step<'_>> {
    let mut steps = Vec::new();
    while let [how, rest @ ..] = run {
        let (others, rest) = match how & OTHERS_LENT {
            0 => (None, rest),
            _ => (Some(rest[..6].try_into().unwrap()), &rest[6..]),
        };
        let (member, rest) = rest.split_at(1 + rest[0].div_ceil(8) as usize);
        steps.push(Step { by_record: how & BY_RECORD != 0, others, member });
        run = rest;
    }
    steps
}

// ---- a step ----

/// What is given, what the lent layout holds afterwards, and what the call broke.
type Added = (u64, Layout, Option<&'static str>);

pub fn add(lent: Layout, field: Layout, repr_packed: u64) -> Added {
    alters(lent, |working| lukaripe_working_add(working, Words(field), repr_packed))
}

pub fn add_record(lent: Layout, member: &[u64], repr_packed: u64) -> Added {
    let mut strays = None;
    let (refusal, after, broken) = alters(lent, |working| {
        let read = reads(&bytes(member), |at, len| {
            // SAFETY: the bytes are as many as said.
            Answer::refused(unsafe { lukaripe_working_add_record(working, at, len, repr_packed) })
        });
        strays = read.broken;
        read.refusal
    });
    (refusal, after, broken.or(strays))
}

/// The words of a member's bytes; None where they are not a record's.
fn record(member: &[u64]) -> Option<Layout> {
    match records(member).as_deref() {
        Some([words]) => Some(*words),
        _ => None,
    }
}

/// The refusal of an addition that the Rust is not handed: of the lent words, of the member's length, of its record.
pub fn refusal_apart(lent: Layout, member: &[u64]) -> Option<u64> {
    let number = |causes: &[table::Cause]| first(causes).map(|answer| answer.refusal);
    // By value its numbers fit.
    let of_member = |words| number(&table::record(words));
    number(&table::layout(lent)).or_else(|| record(member).map_or(Some(20), of_member))
}

/// What the Rust says of an addition that it is handed; the alignment modifier of both beside it.
pub fn by_the_rust(lent: Layout, member: &[u64], repr_packed: u64) -> (Result<Layout, u64>, bool) {
    let member = record(member).expect("it is a record");
    let modifier = has_modifier(lent[1]) || has_modifier(member[1]);
    (said(|| oracle::extend(lent, member, repr_packed)), modifier)
}

fn with_modifier([align, kind, rest @ ..]: Layout, modifier: bool) -> Layout {
    let [size_base, offset, elem_size, word] = rest;
    [align, kind + 4 * u64::from(modifier), size_base, offset, elem_size, word]
}

// ---- a run ----

fn composed(repr_align: u64, repr_packed: u64, members: &[u8]) -> Told<7> {
    // SAFETY: the bytes are as many as said.
    unsafe { lukaripe_compose(repr_align, repr_packed, members.as_ptr(), members.len()) }
}

/// A working layout, and what it is built of.
struct Working {
    repr_align: u64,
    repr_packed: u64,
    words: Layout,
    accepted: Vec<u8>,
}

impl Working {
    /// What is broken where it is not the composition of the accepted members.
    fn not_composed(&self) -> Option<&'static str> {
        let Told { refusal, values: [place, ref words @ ..] } =
            composed(self.repr_align, self.repr_packed, &self.accepted);
        let same = (refusal, place) == (0, 0) && *words == self.words;
        (!same).then_some("the working layout is not the composition of the accepted members")
    }

    /// What is broken of a step, of which this was given and the lent words are these afterwards.
    fn broken(&self, step: &Step, refusal: u64, after: Layout) -> Option<&'static str> {
        let lent = step.others.unwrap_or(self.words);
        if step.others.is_none() && record(step.member).is_some() {
            let next = composed(self.repr_align, self.repr_packed, &[&self.accepted[..], &bytes(step.member)].concat());
            let place = if refusal == 0 { 0 } else { self.accepted.len() / RECORD };
            if (next.refusal, next.values[0]) != (refusal, place as u64) {
                return Some("a member is not refused as the composition refuses it next");
            }
        }
        if let Some(number) = refusal_apart(lent, step.member) {
            return (refusal != number).then_some("the refusal of a step is not the table's");
        }
        let (says, modifier) = by_the_rust(lent, step.member, self.repr_packed);
        let expected = match says {
            Ok(words) => (0, with_modifier(words, modifier)),
            Err(number) => (number, lent),
        };
        ((refusal, after) != expected).then_some("a step is not the Rust's")
    }

    /// Makes a step: what came of it, and what is broken.
    fn make(&mut self, step: &Step) -> (Answer, Option<&'static str>) {
        let lent = step.others.unwrap_or(self.words);
        let (refusal, after, broken) = match record(step.member) {
            Some(field) if !step.by_record => add(lent, field, self.repr_packed),
            _ => add_record(lent, step.member, self.repr_packed),
        };
        let broken = broken.or_else(|| self.broken(step, refusal, after));
        let answer = Answer::added(refusal, self.accepted.len() / RECORD, after);
        if step.others.is_none() {
            self.words = after;
            if refusal == 0 {
                self.accepted.extend(bytes(step.member));
            }
        }
        (answer, broken.or_else(|| self.not_composed()))
    }
}

/// What came of the last step, by the exports; every step is looked at.
pub fn run(inputs: &[u64]) -> Answer {
    let &[repr_align, repr_packed, ref run @ ..] = inputs else { unreachable!() };
    let begun = lukaripe_working_begin(repr_align);
    let mut answer = Answer::added(begun.refusal, 0, begun.values);
    if begun.refusal != 0 {
        return answer;
    }
    let mut working = Working { repr_align, repr_packed, words: begun.values, accepted: Vec::new() };
    let mut broken = working.not_composed();
    for step in steps(run) {
        let wrong;
        (answer, wrong) = working.make(&step);
        broken = broken.or(wrong);
        count(&step, answer.refusal);
    }
    Answer { broken, ..answer }
}

/// What comes of the last step by the table and the Rust alone.
struct Expected {
    answer: Answer,
    /// Whether the Rust was asked for it.
    by_the_rust: bool,
    modifier: bool,
}

fn expected(inputs: &[u64]) -> Expected {
    let &[repr_align, repr_packed, ref run @ ..] = inputs else { unreachable!() };
    let (begun, refusal) = match said(|| oracle::new_zst(repr_align)) {
        Ok(begun) => (begun, 0),
        Err(number) => ([0; 6], number),
    };
    let mut last = Expected { answer: Answer::added(refusal, 0, begun), by_the_rust: true, modifier: repr_align != 0 };
    if refusal != 0 {
        return last;
    }
    let (mut working, mut accepted) = (with_modifier(begun, last.modifier), 0);
    for step in steps(run) {
        let lent = step.others.unwrap_or(working);
        last = match refusal_apart(lent, step.member) {
            Some(number) => {
                Expected { answer: Answer::added(number, accepted, lent), by_the_rust: false, modifier: false }
            }
            None => {
                let (says, modifier) = by_the_rust(lent, step.member, repr_packed);
                let answer = match says {
                    Ok(words) => {
                        working = with_modifier(words, modifier);
                        accepted += 1;
                        Answer::added(0, accepted, words)
                    }
                    Err(number) => Answer::added(number, accepted, lent),
                };
                Expected { answer, by_the_rust: true, modifier }
            }
        };
    }
    last
}

/// By the table, where the Rust is not asked for the last step.
pub fn apart(inputs: &[u64]) -> Option<Answer> {
    let last = expected(inputs);
    (!last.by_the_rust).then_some(last.answer)
}

pub fn rust(inputs: &[u64]) -> Answer {
    expected(inputs).answer
}

pub fn modifier(inputs: &[u64]) -> bool {
    expected(inputs).modifier
}

// ---- how often each thing came of a step ----

/// By record or by value, whether other words were lent, and the refusal.
type Outcome = (bool, bool, u64);

static COUNTS: Mutex<BTreeMap<Outcome, u64>> = Mutex::new(BTreeMap::new());

fn count(step: &Step, refusal: u64) {
    *COUNTS.lock().unwrap().entry((step.by_record, step.others.is_some(), refusal)).or_default() += 1;
}

fn outcomes() -> Vec<Outcome> {
    let mut outcomes = Vec::new();
    for by_record in [false, true] {
        let of_step = [0, 5, 6, 7, 8, 9].map(|refusal| (false, refusal));
        let of_member = [21, 1, 22, 2].map(|refusal| (false, refusal));
        let of_lent = [21, 1, 22, 2].map(|refusal| (true, refusal));
        let of_bytes: &[(bool, u64)] = match (by_record, NARROW) {
            (true, true) => &[(false, 20), (false, 43)],
            (true, false) => &[(false, 20)],
            (false, _) => &[],
        };
        let all = [&of_step[..], &of_lent, of_bytes, &of_member].concat();
        outcomes.extend(all.into_iter().map(|(others, refusal)| (by_record, others, refusal)));
    }
    outcomes
}

fn named((by_record, others, refusal): Outcome) -> String {
    let how = if by_record { "by record" } else { "by value" };
    match (refusal, others) {
        (0, _) => format!("accepted, {how}"),
        (_, true) => format!("refused {refusal} of the lent words, {how}"),
        (_, false) => format!("refused {refusal}, {how}"),
    }
}

/// Each thing that can come of a step, how often it did, and whether the Rust was asked.
pub fn counted() -> Vec<(String, u64, bool)> {
    let counts = COUNTS.lock().unwrap();
    let with_count = |outcome: Outcome| {
        let count = counts.get(&outcome).copied().unwrap_or(0);
        (named(outcome), count, matches!(outcome, (_, false, 0 | 5..=9)))
    };
    outcomes().into_iter().map(with_count).collect()
}

// ---- runs to try ----

fn step(how: u64, others: &[u64], member: &[u64]) -> Vec<u64> {
    [&[how], others, member].concat()
}

fn whole(member: Layout) -> Vec<u64> {
    held(&member, RECORD)
}

/// Every run of a few steps: the small members, by value and by record in turn, and steps that are refused.
pub fn small(level: u64) -> Vec<Vec<u64>> {
    let mut steps: Vec<Vec<u64>> =
        MEMBERS.iter().zip(0..).map(|(member, at)| step(at % 2, &[], &whole(*member))).collect();
    steps.push(step(BY_RECORD, &[], &held(&MEMBERS[0], RECORD - 1)));
    steps.push(step(BY_VALUE, &[], &whole([4, 8, 8, 0, 0, 0])));
    steps.push(step(BY_VALUE + OTHERS_LENT, &[3, 1, 0, 0, 0, 0], &whole(MEMBERS[0])));
    steps.push(step(BY_RECORD + OTHERS_LENT, &[1, 2, 0, 0, 1, 0], &whole(MEMBERS[1])));
    let mut runs = vec![Vec::new()];
    let mut longest = runs.clone();
    for _ in 0..level / 2 {
        longest = longest.iter().flat_map(|run| steps.iter().map(|step| [&run[..], step].concat())).collect();
        runs.extend(longest.iter().cloned());
    }
    runs
}

pub fn at_boundaries(random: &mut Random) -> Vec<u64> {
    let mut run = Vec::new();
    for _ in 0..random.below(4) {
        let member = layouts::preceding_at_boundaries(random);
        run.extend(made(random, member));
    }
    if random.one_in(2) {
        let member = layouts::at_boundaries(random);
        run.extend(made(random, member));
    }
    run
}

pub fn draw(random: &mut Random) -> Vec<u64> {
    let steps = if random.one_in(32) { 0 } else { 1 + random.below(MOST) };
    let mut run = Vec::new();
    for _ in 0..steps {
        let member = member(random);
        run.extend(made(random, member));
    }
    run
}

/// Mostly one that others can follow.
fn member(random: &mut Random) -> Layout {
    let mut member = match random.below(16) {
        0 => layouts::trailing(random),
        1 => layouts::draw(random),
        // So large that it, or what comes next, has no room.
        2 | 3 => {
            let [align, kind, ..] = layouts::fixed(random);
            let bits = random.below(12);
            [align, kind, M - random.below(1 << bits), 0, 0, 0]
        }
        _ => layouts::fixed(random),
    };
    if random.one_in(6) {
        lists::spoil(random, slice::from_mut(&mut member));
    }
    if random.one_in(4) {
        member[1] |= 4;
    }
    member
}

/// A step with this member, by value or by its record, in one case of eight of another length then. In one case of
/// sixteen what is lent is no layout.
fn made(random: &mut Random, member: Layout) -> Vec<u64> {
    let how = random.one_of(&[BY_VALUE, BY_RECORD]);
    let member = match how {
        BY_VALUE => whole(member),
        _ => {
            let member = lists::widened(random, member);
            lists::record(random, member)
        }
    };
    if random.one_in(16) {
        return step(how + OTHERS_LENT, &no_layout(random), &member);
    }
    step(how, &[], &member)
}

fn no_layout(random: &mut Random) -> Layout {
    loop {
        let mut words = layouts::draw_preceding(random);
        lists::spoil(random, slice::from_mut(&mut words));
        if first(&table::layout(words)).is_some() {
            return words;
        }
    }
}
