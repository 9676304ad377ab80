//! Layouts as records.

use super::exports;
use super::{Layout, Refusal, Result, RECORD_LENGTH};

impl Layout {
    /// The record of the layout.
    ///
    /// ```
    /// use lukaripe::Layout;
    ///
    /// let layout = Layout::of_slice::<u32>();
    /// let record = layout.to_bytes()?;
    /// assert_eq!(Layout::from_bytes(&record)?, layout);
    /// # Ok::<(), lukaripe::Refusal>(())
    /// ```
    ///
    /// # Errors
    ///
    /// [`Refusal::AlignNotPowerOfTwo`], [`Refusal::RoundingWordZero`].
    pub fn to_bytes(self) -> Result<[u8; RECORD_LENGTH]> {
        let mut record = [0; RECORD_LENGTH];
        self.encode(&mut record)?;
        Ok(record)
    }

    /// The layout of a record.
    ///
    /// ```
    /// use lukaripe::{Layout, Refusal, Scalar};
    ///
    /// let mut record = Layout::scalar(Scalar::U32).to_bytes()?;
    /// assert_eq!(Layout::from_bytes(&record)?.size(), Some(4));
    ///
    /// // The kind is the second word, and none is above 7.
    /// record[8] = 8;
    /// assert_eq!(Layout::from_bytes(&record), Err(Refusal::Kind));
    /// # Ok::<(), Refusal>(())
    /// ```
    ///
    /// # Errors
    ///
    /// [`Refusal::Kind`], [`Refusal::AlignNotPowerOfTwo`], then for a fixed size [`Refusal::FixedRecord`], else
    /// [`Refusal::RoundingWordZero`]; at 32 bits then [`Refusal::NumberPassesWidth`].
    pub fn from_bytes(record: &[u8; RECORD_LENGTH]) -> Result<Layout> {
        Layout::decode(record)
    }

    /// Reads a record from a slice of its length.
    ///
    /// ```
    /// use lukaripe::{Layout, Refusal, Scalar, RECORD_LENGTH};
    ///
    /// let record = Layout::scalar(Scalar::U32).to_bytes()?;
    /// let file = [record, record].concat();
    /// assert_eq!(Layout::decode(&file[RECORD_LENGTH..])?, Layout::scalar(Scalar::U32));
    /// assert_eq!(Layout::decode(&file), Err(Refusal::RecordLength));
    /// # Ok::<(), Refusal>(())
    /// ```
    ///
    /// # Errors
    ///
    /// [`Refusal::RecordLength`], then those of [`Layout::from_bytes`].
    pub fn decode(record: &[u8]) -> Result<Layout> {
        // SAFETY: the bytes are lent for the call.
        unsafe { exports::lukaripe_decode(record.as_ptr(), record.len()) }.answer().map(Layout::from_words)
    }

    /// Writes the record into a slice of its length. On a refusal no byte of `out` has changed.
    ///
    /// ```
    /// use lukaripe::{Layout, Refusal, Scalar, RECORD_LENGTH};
    ///
    /// let mut file = [0; 2 * RECORD_LENGTH];
    /// for record in file.chunks_mut(RECORD_LENGTH) {
    ///     Layout::scalar(Scalar::U8).encode(record)?;
    /// }
    /// assert_eq!(Layout::scalar(Scalar::U8).encode(&mut file), Err(Refusal::RecordLength));
    /// # Ok::<(), Refusal>(())
    /// ```
    ///
    /// # Errors
    ///
    /// [`Refusal::RecordLength`], [`Refusal::AlignNotPowerOfTwo`], [`Refusal::RoundingWordZero`].
    pub fn encode(self, out: &mut [u8]) -> Result<()> {
        // SAFETY: the bytes are lent for the call.
        match unsafe { exports::lukaripe_encode(self.words(), out.as_mut_ptr(), out.len()) } {
            0 => Ok(()),
            number => Err(Refusal::told(number)),
        }
    }
}
