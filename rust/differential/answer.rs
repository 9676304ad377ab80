//! What a call said, from whichever side.

use crate::exports::{Carried, Told};

/// The most numbers that an answer has.
const MOST: usize = 12;

/// The refusal number, 0 where there is none, and the numbers of the answer. Those not used are 0, and on a refusal all
/// of them but a list's place, the count that comes with 15, the words of a lent layout or of lent output and the other
/// answers of a chain, so that a refusal that hands back anything else is a difference.
#[derive(Clone, Copy, PartialEq, Eq)]
pub struct Answer {
    pub refusal: u64,
    pub values: [u64; MOST],
    /// What the call broke besides: bytes or numbers that it may not change, others that it wrote wrong, or the
    /// conversion guarantee.
    pub broken: Option<&'static str>,
}

impl Answer {
    fn new<const N: usize>(refusal: u64, some: [u64; N]) -> Answer {
        let mut values = [0; MOST];
        values[..N].copy_from_slice(&some);
        Answer { refusal, values, broken: None }
    }

    pub fn of<const N: usize>(values: [u64; N]) -> Answer {
        Answer::new(0, values)
    }

    pub fn refused(refusal: u64) -> Answer {
        Answer::new(refusal, [])
    }

    /// A refusal that a number comes with.
    pub fn refused_with(refusal: u64, value: u64) -> Answer {
        Answer::new(refusal, [value])
    }

    /// A refusal of a list.
    pub fn refused_at(refusal: u64, place: usize) -> Answer {
        Answer::new(refusal, [place as u64])
    }

    /// A refusal beside which stand the words that a lent layout holds.
    pub fn refused_beside(refusal: u64, words: [u64; 6]) -> Answer {
        Answer::new(refusal, words)
    }

    /// What came of an addition behind so many members: the place of a refusal, as a list has it, and the words that
    /// the lent layout holds.
    pub fn added(refusal: u64, accepted: usize, words: [u64; 6]) -> Answer {
        let place = if refusal == 0 { 0 } else { accepted as u64 };
        let [align, kind, size_base, offset, elem_size, word] = words;
        Answer::new(refusal, [place, align, kind, size_base, offset, elem_size, word])
    }

    /// What came of one that writes bytes: words of the output, on a refusal too.
    pub fn written<const N: usize>(refusal: u64, words: [u64; N]) -> Answer {
        Answer::new(refusal, words)
    }

    /// What came of a move: the place and the number of bytes written, then words of the output, on a refusal too.
    pub fn moved(refusal: u64, told: [u64; 2], words: [u64; 10]) -> Answer {
        let mut answer = Answer::new(refusal, told);
        answer.values[2..].copy_from_slice(&words);
        answer
    }

    /// The refusal and as many of the other numbers.
    pub fn numbers(&self, values: usize) -> Vec<u64> {
        let mut numbers = vec![self.refusal];
        numbers.extend(&self.values[..values]);
        numbers
    }
}

/// What a function of the Rust says, as an export tells it.
pub fn told<const N: usize>(says: oracle::Says<N>) -> Told<N> {
    match says {
        Ok(values) => Told { refusal: 0, values },
        Err(refusal) => Told { refusal, values: [0; N] },
    }
}

impl<const N: usize> From<Told<N>> for Answer {
    fn from(told: Told<N>) -> Answer {
        Answer::new(told.refusal, told.values)
    }
}

impl<const N: usize> From<oracle::Says<N>> for Answer {
    fn from(says: oracle::Says<N>) -> Answer {
        told(says).into()
    }
}

/// A composition: the place comes first, 0 where there is no refusal.
impl From<Result<oracle::Layout, oracle::AtPlace>> for Answer {
    fn from(says: Result<oracle::Layout, oracle::AtPlace>) -> Answer {
        match says {
            Ok([align, kind, size_base, offset, elem_size, word]) => {
                Answer::of([0, align, kind, size_base, offset, elem_size, word])
            }
            Err((refusal, place)) => Answer::refused_at(refusal, place),
        }
    }
}

/// A chain: its refusal is that of the conversion, and the other three answers have theirs among the values.
impl From<Carried> for Answer {
    fn from(Carried { computed, count, first, second }: Carried) -> Answer {
        let Told { refusal, values: [kind, offset_delta_elems, elem_multiple, dst_meta] } = computed;
        Answer::new(
            refusal,
            [
                kind,
                offset_delta_elems,
                elem_multiple,
                dst_meta,
                count.refusal,
                count.values[0],
                first.refusal,
                first.values[0],
                first.values[1],
                second.refusal,
                second.values[0],
                second.values[1],
            ],
        )
    }
}

/// A yes or no.
impl From<u8> for Answer {
    fn from(yes: u8) -> Answer {
        Answer::of([u64::from(yes)])
    }
}
