//! Recorded answers, the Rust's, and the documents' table where the Rust has none: a choice of the inputs tried, spread
//! evenly over what can come of each function. Their kinds have the alignment modifier, which the Rust has not. Beside
//! them lines that are wrong on purpose, which a reader must report.
//!
//! A line is decimal numbers with single spaces between: the function's number (its row has it), the inputs in the
//! order of the C parameters, bytes last, the refusal number (0: none), and the numbers of the answer, which are 0 on a
//! refusal, but for those below that stay.
//!
//! A layout is the six words of its record; a trailing layout is the last four of them, size_base, offset, elem_size,
//! word; parameters of a conversion are kind, offset_delta_elems, elem_multiple, dst_meta; a bool is 0 or 1. Bytes that
//! are read are the length in bytes and then the 8-byte words, little-endian, and for a length that is no multiple of 8
//! the remaining bytes as one little-endian number. Bytes that are written are their length alone, and the answer is
//! the six words of the record. The answer of a composition, and of a description, whose bytes are the input, is the
//! place and then the six words; the place stays on a refusal. Of one that writes places and gaps the inputs are
//! repr_align, repr_packed, the lengths of the two slices, an index and the members' bytes, and behind the six words
//! come the place and the gap of the member at that index modulo the count, 0 where there are no members. That of an
//! addition to a lent layout is the six words that it holds afterwards; on a refusal they are those that were lent. Of
//! what writes short records or moves records the output is the front of an area of 512 bytes, which are 0xa5 before;
//! the answer has words of that area afterwards, on a refusal too. Of a short record it is the first five, and the
//! input is the length that is lent. Of a move the inputs are that length, the index of a word of the area, at most 54,
//! and the records' bytes, and the answer is the place, the number of bytes written and ten words from that one on; of
//! a description that is rewritten they are the same, with its bytes. Of all cases the inputs are the length of the
//! lists, that of the output, which is the front of an area of 218,496 bytes, and the index of a word, at most 27,302,
//! and the answer is the number of bytes written and ten words. That of a normal form is size_base, elem_size, word. Of
//! the padding over counts the inputs are the layout, the number of counts and the counts, and the answer is the place,
//! the two numbers of either fraction, the greatest padding and its index; the place stays on a refusal. That of a
//! conversion with casts after it is the parameters, and then of the count and of either cast the refusal number and
//! the numbers; those of the casts stay where the conversion is refused. So all lines of a function have the same
//! length, where it reads no bytes or counts.

use crate::answer::Answer;
use crate::inputs::{Phase, PHASES};
use crate::random::Random;
use crate::rows::Row;
use std::collections::BTreeSet;

/// A line has no more numbers than its readers have room for: a longer one is not kept.
const MOST: usize = 63;

/// The lines kept of one function. As many are kept of each slot from each phase, every one seen as likely as another;
/// where the slots are so many that this would pass the number asked for, one of each slot from any phase. The given
/// cases are few and are all kept.
pub struct Recorded<'a> {
    row: &'a Row,
    random: Random,
    /// How many lines are kept of a slot from a phase, the given cases aside, and whether the phases share that.
    room: usize,
    shared: bool,
    /// A place for each slot and phase: how many were seen, and the lines kept.
    kept: Vec<(u64, Vec<Vec<u64>>)>,
}

impl Recorded<'_> {
    pub fn new(row: &Row, slots: usize, seed: u64, lines: u64) -> Recorded<'_> {
        let places = slots * (PHASES.len() - 1);
        Recorded {
            row,
            random: Random::new(seed),
            room: (lines as usize).div_ceil(places),
            shared: places > lines as usize,
            kept: vec![(0, Vec::new()); slots * PHASES.len()],
        }
    }

    pub fn see(&mut self, phase: Phase, slot: usize, inputs: &[u64], answer: &Answer) {
        if 1 + inputs.len() + 1 + self.row.values > MOST {
            return;
        }
        let kept_as = if self.shared && phase != Phase::Given { Phase::Random } else { phase };
        let (seen, kept) = &mut self.kept[slot * PHASES.len() + kept_as as usize];
        *seen += 1;
        if kept.len() < self.room || phase == Phase::Given {
            kept.push(line(self.row, inputs, answer));
            return;
        }
        // The newest of n takes a kept one's place in `room` of n cases.
        let at = self.random.below(*seen) as usize;
        if at < self.room {
            kept[at] = line(self.row, inputs, answer);
        }
    }

    /// Sorted, and each line once, after the name of the file that it belongs to.
    pub fn print(self) {
        let lines: BTreeSet<Vec<u64>> = self.kept.into_iter().flat_map(|(_, lines)| lines).collect();
        print("answers", &lines);
        print("wrong", &wrong(self.row, &lines));
    }
}

fn print<'a>(file: &str, lines: impl IntoIterator<Item = &'a Vec<u64>>) {
    for line in lines {
        let words: Vec<String> = line.iter().map(u64::to_string).collect();
        println!("{file} {}", words.join(" "));
    }
}

/// Lines with one number of the answer changed: of an accepted one each, and of a refused one each that is not 0, which
/// are the refusal, a list's place, the words of a lent layout or of output and the other answers of a chain.
fn wrong(row: &Row, lines: &BTreeSet<Vec<u64>>) -> Vec<Vec<u64>> {
    let start = |line: &[u64]| line.len() - 1 - row.values;
    let zeros = |line: &[u64]| line[start(line)..].iter().filter(|number| **number == 0).count();
    let (accepted, refused): (Vec<_>, Vec<_>) = lines.iter().partition(|line| line[start(line)] == 0);
    let mut wrong = Vec::new();
    // The ones that tell most.
    if let Some(line) = accepted.into_iter().min_by_key(|line| zeros(line)) {
        wrong.extend((start(line)..line.len()).map(|at| with_next(line, at)));
    }
    if let Some(line) = refused.into_iter().min_by_key(|line| zeros(line)) {
        wrong.extend((start(line)..line.len()).filter(|at| line[*at] != 0).map(|at| with_next(line, at)));
    }
    wrong
}

/// The line with the next number in one place.
fn with_next(line: &[u64], at: usize) -> Vec<u64> {
    let mut line = line.to_vec();
    line[at] = line[at].wrapping_add(1);
    line
}

fn line(row: &Row, inputs: &[u64], answer: &Answer) -> Vec<u64> {
    let mut line = vec![row.number];
    line.extend(inputs);
    line.extend(answer.numbers(row.values));
    line
}
