//! Calls each function of the crate on recorded answers, at either width, and compares.
//!
//! tools/wrapper-test runs this: LUKARIPE_ANSWERS names the file of 64 bits, and LUKARIPE_ANSWERS32 that of 32. How a
//! line reads is written in rust/differential/recorded.rs.

// The sources of bits/ are compiled at both widths, and what is a conversion at one is none at the other.
#![allow(clippy::duplicate_mod, clippy::useless_conversion)]

mod bits32;
mod bits64;

use std::collections::BTreeSet;
use std::{env, fs};

/// The functions have the numbers from 1 to this.
const FUNCTIONS: u64 = 55;

/// What moves records and what writes all cases: their lines are among those of 64 bits alone.
const WITHOUT_WIDTH: [u64; 3] = [41, 42, 49];

/// `answers` of bits/, at a width.
type Answers = fn(&[u64]) -> Option<(Vec<u64>, &[u64])>;

/// The functions that the lines call. Each line must have what its function tells.
fn replay(variable: &str, answers: Answers) -> BTreeSet<u64> {
    let file = env::var(variable).expect(variable);
    let text = fs::read_to_string(&file).unwrap_or_else(|error| panic!("{file}: {error}"));
    let (mut lines, mut compared, mut called) = (0, 0, BTreeSet::new());
    for line in text.lines() {
        lines += 1;
        let numbers: Vec<u64> = line.split(' ').map(|number| number.parse().unwrap()).collect();
        if let Some((told, recorded)) = answers(&numbers) {
            assert_eq!(told, recorded, "line {lines} of {file}: {line}");
            compared += 1;
            called.insert(numbers[0]);
        }
    }
    println!("{compared} of {lines} lines compared, of {} functions", called.len());
    called
}

#[test]
#[ignore = "tools/wrapper-test runs it"]
fn agrees_with_the_recorded_answers() {
    let called = replay("LUKARIPE_ANSWERS", bits64::answers);
    assert_eq!(called, (1..=FUNCTIONS).collect());
}

#[test]
#[ignore = "tools/wrapper-test runs it"]
fn agrees_with_the_recorded_answers_of_32_bits() {
    let called = replay("LUKARIPE_ANSWERS32", bits32::answers);
    assert_eq!(called, (1..=FUNCTIONS).filter(|function| !WITHOUT_WIDTH.contains(function)).collect());
}
