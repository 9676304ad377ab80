//! What the answers of the C interface tell.

use super::exports::Told;
use super::shapes::{Moved, Placed};
use super::{Layout, NoSize, Refusal, Refused, Result, Word};

impl<const N: usize> Told<N> {
    pub(crate) fn answer(self) -> Result<[Word; N]> {
        match self.refusal {
            0 => Ok(self.values),
            number => Err(Refusal::told(number)),
        }
    }
}

impl Told<1> {
    pub(crate) fn number(self) -> Result<Word> {
        self.answer().map(|[value]| value)
    }

    /// A size; beside 15 the value is the greatest count that has one.
    pub(crate) fn size(self) -> Result<Word, NoSize> {
        let [value] = self.values;
        match self.refusal {
            0 => Ok(value),
            number => {
                let refusal = Refusal::told(number);
                Err(NoSize { refusal, greatest: (refusal == Refusal::NoSize).then_some(value) })
            }
        }
    }

    pub(crate) fn decision(self) -> Result<bool> {
        self.number().map(|value| value != 0)
    }
}

impl Placed {
    /// What was composed or described.
    pub(crate) fn layout(self) -> Result<Layout, Refused> {
        match self.refusal {
            0 => Ok(Layout::from_words(self.layout)),
            number => Err(Refused { refusal: Refusal::told(number), place: self.place }),
        }
    }
}

impl Moved {
    /// How many bytes were written.
    pub(crate) fn written(self) -> Result<usize, Refused> {
        match self.refusal {
            // Not more than there was room for.
            0 => Ok(self.written as usize),
            number => Err(Refused { refusal: Refusal::told(number), place: self.place }),
        }
    }
}
