//! Layouts as short records.

use super::exports;
use super::{Layout, Refusal, Result, SHORT_RECORD_LENGTH};

impl Layout {
    /// The short record of the layout.
    ///
    /// ```
    /// use lukaripe::{Layout, Refusal, RoundingAlignAndPhase, SizeInfo};
    ///
    /// let mut layout = Layout::of_slice::<u32>();
    /// let record = layout.to_short_bytes()?;
    /// assert_eq!(Layout::from_short_bytes(&record)?, layout);
    ///
    /// // A rounding word of more than 32 bits has no room.
    /// let mut text = layout.trailing().unwrap();
    /// text.size_rounding_align_and_phase = RoundingAlignAndPhase::new(1 << 32, 0)?;
    /// layout.size_info = SizeInfo::SliceDst(text);
    /// assert_eq!(layout.to_short_bytes(), Err(Refusal::WordAboveShort));
    /// # Ok::<(), Refusal>(())
    /// ```
    ///
    /// # Errors
    ///
    /// [`Refusal::AlignNotPowerOfTwo`], [`Refusal::RoundingWordZero`]; at 64 bits then [`Refusal::WordAboveShort`].
    pub fn to_short_bytes(self) -> Result<[u8; SHORT_RECORD_LENGTH]> {
        let mut record = [0; SHORT_RECORD_LENGTH];
        self.encode_short(&mut record)?;
        Ok(record)
    }

    /// The layout of a short record.
    ///
    /// ```
    /// use lukaripe::{Layout, Refusal, Scalar};
    ///
    /// let mut record = Layout::scalar(Scalar::U32).to_short_bytes()?;
    /// assert_eq!(Layout::from_short_bytes(&record)?, Layout::scalar(Scalar::U32));
    ///
    /// // The alignment is 1 << 64 now, which is none.
    /// record[28] = 64;
    /// assert_eq!(Layout::from_short_bytes(&record), Err(Refusal::SpareOrPower));
    /// # Ok::<(), Refusal>(())
    /// ```
    ///
    /// # Errors
    ///
    /// [`Refusal::Kind`], [`Refusal::SpareOrPower`], then for a fixed size [`Refusal::FixedRecord`], else
    /// [`Refusal::RoundingWordZero`]; at 32 bits then [`Refusal::NumberPassesWidth`].
    pub fn from_short_bytes(record: &[u8; SHORT_RECORD_LENGTH]) -> Result<Layout> {
        Layout::decode_short(record)
    }

    /// Reads a short record from a slice of its length.
    ///
    /// ```
    /// use lukaripe::{Layout, Refusal, Scalar, SHORT_RECORD_LENGTH};
    ///
    /// let record = Layout::scalar(Scalar::U32).to_short_bytes()?;
    /// let file = [record, record].concat();
    /// assert_eq!(Layout::decode_short(&file[SHORT_RECORD_LENGTH..])?, Layout::scalar(Scalar::U32));
    /// assert_eq!(Layout::decode_short(&file), Err(Refusal::RecordLength));
    /// # Ok::<(), Refusal>(())
    /// ```
    ///
    /// # Errors
    ///
    /// [`Refusal::RecordLength`], then those of [`Layout::from_short_bytes`].
    pub fn decode_short(record: &[u8]) -> Result<Layout> {
        // SAFETY: the bytes are lent for the call.
        unsafe { exports::lukaripe_decode_short(record.as_ptr(), record.len()) }.answer().map(Layout::from_words)
    }

    /// Writes the short record into a slice of its length. On a refusal no byte of `out` has changed.
    ///
    /// ```
    /// use lukaripe::{Layout, Refusal, Scalar, SHORT_RECORD_LENGTH};
    ///
    /// let mut file = [0; 2 * SHORT_RECORD_LENGTH];
    /// for record in file.chunks_mut(SHORT_RECORD_LENGTH) {
    ///     Layout::scalar(Scalar::U8).encode_short(record)?;
    /// }
    /// assert_eq!(Layout::scalar(Scalar::U8).encode_short(&mut file), Err(Refusal::RecordLength));
    /// # Ok::<(), Refusal>(())
    /// ```
    ///
    /// # Errors
    ///
    /// [`Refusal::RecordLength`], then those of [`Layout::to_short_bytes`].
    pub fn encode_short(self, out: &mut [u8]) -> Result<()> {
        // SAFETY: the bytes are lent for the call.
        match unsafe { exports::lukaripe_encode_short(self.words(), out.as_mut_ptr(), out.len()) } {
            0 => Ok(()),
            number => Err(Refusal::told(number)),
        }
    }
}
