//! Why a call is refused.

use core::error::Error;
use core::fmt;

/// What a call gives: its answer, or why it is refused.
pub type Result<T, E = Refusal> = core::result::Result<T, E>;

/// The causes, each with its number and its words.
macro_rules! refusals {
    ($($name:ident = $number:literal, $words:literal;)*) => {
        /// Why a call is refused.
        ///
        /// Each cause has a number, the same in C and in the listing program. More causes may come; a number keeps its
        /// cause.
        ///
        /// ```
        /// use lukaripe::{padding_needed_for, Refusal};
        ///
        /// let refusal = padding_needed_for(1, 3).unwrap_err();
        /// assert_eq!(refusal, Refusal::AlignNotPowerOfTwo);
        /// assert_eq!(refusal.number(), 1);
        /// assert_eq!(refusal.to_string(), "an alignment is 0 or no power of two");
        /// ```
        #[derive(Clone, Copy, Debug, PartialEq, Eq, Hash)]
        #[non_exhaustive]
        pub enum Refusal {
            $(
                #[doc = concat!($number, ": ", $words, ".")]
                $name = $number,
            )*
        }

        const ALL: &[Refusal] = &[$(Refusal::$name),*];

        impl fmt::Display for Refusal {
            fn fmt(&self, out: &mut fmt::Formatter) -> fmt::Result {
                out.pad(match self {
                    $(Refusal::$name => $words,)*
                })
            }
        }
    };
}

refusals! {
    AlignNotPowerOfTwo = 1, "an alignment is 0 or no power of two";
    RoundingWordZero = 2, "the rounding word is 0";
    PhaseNotBelowAlign = 3, "the phase is not below its alignment";
    SizeNotMultipleOfAlign = 4, "the size of a type is not a multiple of its alignment";
    PackingNotPowerOfTwo = 5, "the packing is no power of two";
    AlignAboveMax = 6, "an alignment or the packing is above 2^29 while a member is added";
    MemberAfterTrailing = 7, "a member comes after a run of elements";
    RoundingPassesMax = 8, "rounding up overflows";
    MemberPassesMax = 9, "the size, offset or base of a member overflows";
    CastElemSizeZero = 10, "the elements of a cast have size 0";
    AddressPassesMax = 11, "the sum of address and length overflows";
    CastNotAligned = 12, "the bytes of a cast are not aligned";
    CastTooSmall = 13, "the bytes of a cast are too few";
    NoExactCount = 14, "no count of elements has exactly this size";
    NoSize = 15, "the size at this count of elements overflows";
    NoRoom = 16, "there is less room than the size without elements";
    AdvancePassesMax = 17, "the advance overflows";
    ConvertedCountPassesMax = 19, "the converted count overflows";
    RecordLength = 20, "a record is not 48 bytes long, or a short one 32, or a list no multiple of that";
    Kind = 21, "the kind of a record is above 7";
    FixedRecord = 22, "a record of a fixed size has a later word that is not 0";
    ScalarCode = 23, "the code of a scalar is above 8";
    SliceLength = 24, "a lent slice has another length than there are members";
    SourceAlignLower = 25, "the source's alignment is lower than the target's";
    FixedSizesDiffer = 26, "both are of a fixed size, and the sizes differ";
    TrailingToFixed = 27, "the source ends in a run of elements and the target is of a fixed size";
    SourceNoExactCount = 28, "no count of the target's elements has exactly the size of the source";
    TargetElemSizeZero = 29, "the target's elements have size 0";
    SourceElemSmaller = 30, "the source's elements are smaller than the target's";
    ElemNoMultiple = 31, "the size of the source's elements is no whole multiple of the target's";
    NoShift = 32, "no shift lines the sizes of source and target up";
    DescriptionCut = 33, "the bytes of a description run out";
    TagOrPower = 34, "a tag of a description is unknown, or a power is above 63";
    NestingTooDeep = 35, "more than 16 structs, arrays and slices are open in a description";
    ElemTrailing = 36, "an element of an array or slice ends in a run of elements itself";
    ArrayPassesMax = 37, "the size of an array overflows";
    BytesLeftOver = 38, "bytes are left over behind a description";
    NoSizeAtZero = 39, "the size without elements overflows";
    WordAboveShort = 40, "the rounding word needs more than the 32 bits of a short record";
    OutputShort = 41, "the output is too short";
    SpareOrPower = 42, "the spare bytes of a short record are not 0, or its power is above 63";
    NumberPassesWidth = 43, "a number does not fit the chosen width";
    CountAboveByte = 44, "a member count of a description is above 255, and is to be one byte";
    RewriteShort = 45, "the output is too short for the rewritten description";
    FormBasePassesMax = 46, "the base of the normal form overflows";
    ListsTooLong = 47, "the lists are longer than 6 members";
    CasesShort = 48, "the buffer is too short for all cases";
    AlignAndPacked = 49, "an alignment and a packing are both asked for";
    AlignModifierInPacked = 50, "a member of a packed struct has an alignment modifier";
    NoCounts = 51, "there are no counts";
    EndAboveSize = 52, "the end of the elements is above the size";
    SumPassesMax = 53, "a sum over the counts overflows";
}

impl Refusal {
    /// Every cause, in the order of the numbers.
    ///
    /// ```
    /// use lukaripe::Refusal;
    ///
    /// for refusal in Refusal::all() {
    ///     println!("{:2} {refusal}", refusal.number());
    /// }
    /// assert_eq!(Refusal::all().next(), Some(Refusal::AlignNotPowerOfTwo));
    /// ```
    pub fn all() -> impl Iterator<Item = Refusal> {
        ALL.iter().copied()
    }

    /// The number of the cause, the same in C and in the listing program. It is never 0.
    ///
    /// ```
    /// use lukaripe::Refusal;
    ///
    /// assert_eq!(Refusal::MemberAfterTrailing.number(), 7);
    /// ```
    pub const fn number(self) -> u64 {
        self as u64
    }

    /// What the library told, whose numbers are all known here where both are of one version.
    pub(crate) fn told(number: u64) -> Refusal {
        Refusal::try_from(number).unwrap_or_else(|unknown| panic!("liblukaripe.a is of another version: {unknown}"))
    }
}

impl Error for Refusal {}

/// The cause with this number, for numbers that come from data or from C.
///
/// ```
/// use lukaripe::Refusal;
///
/// assert_eq!(Refusal::try_from(7)?, Refusal::MemberAfterTrailing);
/// assert_eq!(Refusal::try_from(0).unwrap_err().to_string(), "no refusal has the number 0");
/// # Ok::<(), lukaripe::UnknownRefusal>(())
/// ```
impl TryFrom<u64> for Refusal {
    type Error = UnknownRefusal;

    fn try_from(number: u64) -> Result<Refusal, UnknownRefusal> {
        Refusal::all().find(|cause| cause.number() == number).ok_or(UnknownRefusal { number })
    }
}

/// A number that is no refusal's.
#[derive(Clone, Copy, Debug, PartialEq, Eq, Hash)]
pub struct UnknownRefusal {
    /// The number.
    pub number: u64,
}

impl fmt::Display for UnknownRefusal {
    fn fmt(&self, out: &mut fmt::Formatter) -> fmt::Result {
        write!(out, "no refusal has the number {}", self.number)
    }
}

impl Error for UnknownRefusal {}

/// Why a list of members, of records to move or of counts, or a description, is refused, and where.
///
/// A [`Refusal`] becomes one at place 0, so that `?` takes both in a function that composes.
///
/// ```
/// use lukaripe::{for_repr_c_struct, Layout, Refusal, Refused};
///
/// fn pair(size: u64, align: u64) -> Result<Layout, Refused> {
///     let member = Layout::for_type(size, align)?;
///     for_repr_c_struct(None, None, &[member, member])
/// }
///
/// assert_eq!(pair(8, 4)?.size(), Some(16));
/// assert_eq!(pair(6, 4), Err(Refused { refusal: Refusal::SizeNotMultipleOfAlign, place: 0 }));
///
/// let refused = pair(1 << 63, 1).unwrap_err();
/// assert_eq!(refused, Refused { refusal: Refusal::MemberPassesMax, place: 1 });
/// assert_eq!(refused.to_string(), "the size, offset or base of a member overflows (at 1)");
/// # Ok::<(), Refused>(())
/// ```
#[derive(Clone, Copy, Debug, PartialEq, Eq, Hash)]
pub struct Refused {
    /// Why.
    pub refusal: Refusal,
    /// The index of the member, record or count at fault; for the final padding the number of the members; of a
    /// description the index of a byte ([`crate::Layout::read`] says which); else 0.
    pub place: u64,
}

impl fmt::Display for Refused {
    fn fmt(&self, out: &mut fmt::Formatter) -> fmt::Result {
        write!(out, "{} (at {})", self.refusal, self.place)
    }
}

impl Error for Refused {}

impl From<Refusal> for Refused {
    fn from(refusal: Refusal) -> Refused {
        Refused { refusal, place: 0 }
    }
}
