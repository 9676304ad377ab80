//! Records read in place, from a map or from a spare copy of it.

use super::exports;
use super::shapes;
use super::{Cast, Layout, Refusal, Word};

/// Which of two buffers serves, with what its prefix cast granted, and why the others do not.
#[derive(Clone, Copy, Debug, PartialEq, Eq, Hash)]
pub enum Serving {
    /// The map.
    Map(Cast),
    /// The spare copy.
    Spare {
        /// Why the map does not.
        map: Refusal,
        /// What the cast of the spare granted.
        cast: Cast,
    },
    /// Neither of them.
    Neither {
        /// Why the map does not.
        map: Refusal,
        /// Why the spare does not.
        spare: Refusal,
    },
}

impl Layout {
    /// Where to read a record of this layout: in a map of `map_len` bytes at `map_addr` where its prefix cast is
    /// granted, else in a spare copy of `spare_len` bytes at `spare_addr` where that one's is. The lengths have 64 bits
    /// at either width; at 32 bits one above the greatest number is [`Refusal::AddressPassesMax`].
    ///
    /// ```
    /// use lukaripe::{Cast, Layout, Refusal, Serving};
    ///
    /// let layout = Layout::of_slice::<u32>();
    /// let cast = Cast { count: 2, split: 8 };
    /// assert_eq!(layout.which_serves(8, 10, 16, 10), Serving::Map(cast));
    /// let map = Refusal::CastNotAligned;
    /// assert_eq!(layout.which_serves(9, 10, 16, 10), Serving::Spare { map, cast });
    /// assert_eq!(layout.which_serves(9, 10, 17, 10), Serving::Neither { map, spare: Refusal::CastNotAligned });
    /// ```
    pub fn which_serves(self, map_addr: Word, map_len: u64, spare_addr: Word, spare_len: u64) -> Serving {
        let told = exports::lukaripe_which_serves(self.words(), map_addr, map_len, spare_addr, spare_len);
        let shapes::Serving { map_refusal, spare_refusal, serves, count, split } = told.into();
        match serves {
            1 => Serving::Map(Cast { count, split }),
            2 => Serving::Spare { map: Refusal::told(map_refusal), cast: Cast { count, split } },
            _ => Serving::Neither { map: Refusal::told(map_refusal), spare: Refusal::told(spare_refusal) },
        }
    }

    /// The front part of the map or of its spare copy, whichever serves: as many bytes as its cast granted, and nothing
    /// is copied. Where neither serves it is an empty part of the map; [`Layout::which_serves`] tells that from a
    /// granted cast of no bytes, and why.
    ///
    /// `map_addr` and `spare_addr` are the addresses against which alignment is judged, as those that the bytes have in
    /// a mapped file. [`crate::Layout::front_of`], at 64 bits, takes the addresses of the slices themselves.
    ///
    /// ```
    /// use lukaripe::Layout;
    ///
    /// // Elements of 4 bytes; the map starts one byte off its boundary, and its copy does not.
    /// let (map, spare) = ([1, 0, 0, 0, 2, 0, 0, 0, 9], [1, 0, 0, 0, 2, 0, 0, 0]);
    /// let layout = Layout::of_slice::<u32>();
    /// assert_eq!(layout.front(0x1001, &map, 0x2000, &spare), [1, 0, 0, 0, 2, 0, 0, 0]);
    /// // On its boundary the map is read itself, and the copy may be anything.
    /// assert_eq!(layout.front(0x1000, &map, 0, &[]), [1, 0, 0, 0, 2, 0, 0, 0]);
    /// // Neither serves.
    /// assert_eq!(layout.front(0x1001, &map, 0x2002, &spare), []);
    /// ```
    pub fn front<'a>(self, map_addr: Word, map: &'a [u8], spare_addr: Word, spare: &'a [u8]) -> &'a [u8] {
        // A granted split is at most the length of its buffer.
        match self.which_serves(map_addr, map.len() as u64, spare_addr, spare.len() as u64) {
            Serving::Map(cast) => &map[..cast.split as usize],
            Serving::Spare { cast, .. } => &spare[..cast.split as usize],
            Serving::Neither { .. } => &map[..0],
        }
    }
}
