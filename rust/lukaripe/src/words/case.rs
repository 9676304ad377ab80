//! All short member lists as members and packings.

use super::{write_cases, Layout, NonZeroWord, Refusal, Result, Scalar, Word};
use super::{CASES_LENGTH, CASE_LENGTH, LONGEST_LIST};
use alloc::vec;
use alloc::vec::Vec;

/// A list of members and the packing under which it is to be composed.
#[derive(Clone, Copy, Debug, PartialEq, Eq, Hash)]
pub struct Case {
    record: [u8; CASE_LENGTH],
}

impl Case {
    /// The packing; none where there is none.
    pub fn packing(&self) -> Option<NonZeroWord> {
        NonZeroWord::new(Word::from(self.record[1]))
    }

    /// The scalars of the list, from the left: u8, u16, u32 or u64 each.
    pub fn scalars(&self) -> impl Iterator<Item = Scalar> + '_ {
        let codes = &self.record[2..][..usize::from(self.record[0])];
        codes.iter().map(|code| match code {
            0 => Scalar::U8,
            1 => Scalar::U16,
            2 => Scalar::U32,
            _ => Scalar::U64,
        })
    }

    /// The members that a composition takes.
    pub fn members(&self) -> Vec<Layout> {
        self.scalars().map(Layout::scalar).collect()
    }
}

/// What [`write_cases`] writes, as a vector of cases.
///
/// ```
/// use lukaripe::{cases, for_repr_c_struct};
///
/// let all = cases(3)?;
/// assert_eq!(all.len(), 425);
/// for case in all {
///     let layout = for_repr_c_struct(None, case.packing(), &case.members())?;
///     assert!(case.packing().is_none_or(|packing| layout.align <= packing.get()));
/// }
/// # Ok::<(), lukaripe::Refused>(())
/// ```
///
/// # Errors
///
/// [`Refusal::ListsTooLong`].
pub fn cases(longest: u64) -> Result<Vec<Case>> {
    if longest > LONGEST_LIST {
        return Err(Refusal::ListsTooLong);
    }
    let mut out = vec![0; CASES_LENGTH];
    let written = write_cases(longest, &mut out)?;
    let records = out[..written].chunks_exact(CASE_LENGTH);
    Ok(records.map(|record| Case { record: record.try_into().expect("a chunk is as long") }).collect())
}
