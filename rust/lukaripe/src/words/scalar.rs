//! Scalars.

use super::exports;
use super::{Layout, Refusal, Result, Word};

/// A scalar type. Signed integers have the layouts of the unsigned ones.
///
/// Each has a code, for data that names scalars by numbers.
///
/// ```
/// use lukaripe::{Layout, Refusal, Scalar};
///
/// assert_eq!(Scalar::Char.code(), 6);
/// assert_eq!(Scalar::try_from(6)?, Scalar::Char);
/// assert_eq!(Scalar::try_from(9), Err(Refusal::ScalarCode));
/// # Ok::<(), Refusal>(())
/// ```
#[derive(Clone, Copy, Debug, PartialEq, Eq, Hash)]
pub enum Scalar {
    /// Code 0.
    U8 = 0,
    /// Code 1.
    U16,
    /// Code 2.
    U32,
    /// Code 3.
    U64,
    /// Code 4.
    F32,
    /// Code 5.
    F64,
    /// Code 6.
    Char,
    /// Code 7.
    Bool,
    /// Code 8.
    Usize,
}

use Scalar::*;

const ALL: [Scalar; 9] = [U8, U16, U32, U64, F32, F64, Char, Bool, Usize];

impl Scalar {
    /// Every scalar, in the order of the codes.
    ///
    /// ```
    /// use lukaripe::{Layout, Scalar};
    ///
    /// let sizes = Scalar::all().map(|scalar| Layout::scalar(scalar).size().unwrap());
    /// assert!(sizes.eq([1, 2, 4, 8, 4, 8, 4, 1, 8]));
    /// ```
    pub fn all() -> impl Iterator<Item = Scalar> {
        ALL.into_iter()
    }

    /// The code.
    pub const fn code(self) -> Word {
        self as Word
    }
}

/// The scalar with this code; else [`Refusal::ScalarCode`].
impl TryFrom<Word> for Scalar {
    type Error = Refusal;

    fn try_from(code: Word) -> Result<Scalar> {
        Scalar::all().find(|scalar| scalar.code() == code).ok_or(Refusal::ScalarCode)
    }
}

impl Layout {
    /// The layout of a scalar, with the mark. It is aligned to its size, but for u64 and f64 at 32 bits: they are
    /// aligned to 4 there, as on x86, and usize has 4 bytes.
    ///
    /// ```
    /// use lukaripe::{Layout, Scalar};
    ///
    /// let letter = Layout::scalar(Scalar::Char);
    /// assert_eq!(letter.size(), Some(4));
    /// assert_eq!(letter.align, 4);
    /// assert!(letter.statically_shallow_unpadded);
    /// ```
    pub fn scalar(scalar: Scalar) -> Layout {
        Layout::scalar_by_code(scalar.code()).expect("each scalar has a code of the library")
    }

    /// The layout of the scalar with this code, for codes that come from data.
    ///
    /// ```
    /// use lukaripe::{Layout, Refusal, Scalar};
    ///
    /// assert_eq!(Layout::scalar_by_code(6)?, Layout::scalar(Scalar::Char));
    /// assert_eq!(Layout::scalar_by_code(9), Err(Refusal::ScalarCode));
    /// # Ok::<(), Refusal>(())
    /// ```
    ///
    /// # Errors
    ///
    /// [`Refusal::ScalarCode`].
    pub fn scalar_by_code(code: Word) -> Result<Layout> {
        exports::lukaripe_scalar(code).answer().map(Layout::from_words)
    }
}
