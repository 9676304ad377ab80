//! What calls a function on the inputs of a line. It is compiled by bits64.rs for words of 64 bits and by bits32.rs for
//! words of 32: the one above says what a `Word` is, and which part of the crate is meant.

use super::{library, NonZeroWord, Word};

mod cases;
mod full;
mod layouts;
mod shares;
mod shorts;

use library::*;

/// What lent numbers are before they are written, and what stands around those that are read.
const OTHER: Word = Word::from_ne_bytes([0xa5; size_of::<Word>()]);

/// The inputs of a line that are left.
struct Inputs<'a>(std::slice::Iter<'a, u64>);

impl Inputs<'_> {
    /// One that has 64 bits at either width.
    fn long(&mut self) -> u64 {
        *self.0.next().expect("the line is too short")
    }

    fn length(&mut self) -> usize {
        self.long().try_into().expect("the length fits")
    }

    fn number(&mut self) -> Word {
        self.long().try_into().expect("the number fits the width")
    }

    fn word(&mut self) -> RoundingAlignAndPhase {
        RoundingAlignAndPhase(self.number())
    }

    fn trailing(&mut self) -> Trailing {
        Trailing {
            size_base: self.number(),
            offset: self.number(),
            elem_size: self.number(),
            size_rounding_align_and_phase: self.word(),
        }
    }
}

/// An answer as a line has it.
fn told<T: Into<u64>, const N: usize>(answer: Result<[T; N]>) -> Vec<u64> {
    match answer {
        Ok(values) => [&[0], &values.map(Into::into)[..]].concat(),
        Err(refusal) => [&[refusal.number()], &[0; N][..]].concat(),
    }
}

fn number(answer: Result<Word>) -> Vec<u64> {
    told(answer.map(|value| [value]))
}

fn decision(answer: Result<bool>) -> Vec<u64> {
    told(answer.map(|yes| [yes]))
}

/// A size; beside 15 the greatest count that has one.
fn size(answer: Result<Word, NoSize>) -> Vec<u64> {
    match answer {
        Ok(size) => vec![0, size.into()],
        Err(none) => vec![none.refusal.number(), none.greatest.map_or(0, u64::from)],
    }
}

fn trailing(answer: Result<Trailing>) -> Vec<u64> {
    told(answer.map(|t| [t.size_base, t.offset, t.elem_size, t.size_rounding_align_and_phase.0]))
}

/// What the function tells; None where no value of this crate has the inputs.
fn call(function: u64, i: &mut Inputs) -> Option<Vec<u64>> {
    Some(match function {
        1 => decision(Ok(is_power_of_two(i.number()))),
        2 => number(padding_needed_for(i.number(), i.number())),
        3 => number(round_down_to_next_multiple_of_alignment(i.number(), i.number())),
        4 => number(max(i.number(), i.number())),
        5 => number(min(i.number(), i.number())),
        6 => number(RoundingAlignAndPhase::new(i.number(), i.number()).map(|word| word.0)),
        7 => told(i.word().components().map(|(align, phase)| [align, phase])),
        8 => number(i.word().align()),
        9 => number(i.trailing().size_offset()),
        10 => number(i.trailing().max_trailing_bytes(i.number())),
        11 => number(i.trailing().padding_for_elems(i.number())),
        12 => size(i.trailing().size_for_elems(i.number())),
        13 => trailing(i.trailing().advance(i.number(), i.number())),
        14 => decision(i.trailing().has_same_size_sequence(i.trailing())),
        shares::FUNCTION => shares::call(i),
        _ => return layouts::call(function, i),
    })
}

/// What the function of a line tells, and what the line has; None as above.
pub fn answers(line: &[u64]) -> Option<(Vec<u64>, &[u64])> {
    let mut inputs = Inputs(line[1..].iter());
    let told = call(line[0], &mut inputs)?;
    Some((told, inputs.0.as_slice()))
}
