//! Every struct of up to four scalars under every packing, as rustc lays it out: size and alignment must be those of
//! the composition of the case, and the cases must come in the order in which the types are written down here.

use lukaripe::{cases, for_repr_c_struct, Case, SizeInfo};
use std::mem::{align_of, size_of};

/// What comes of one case: its packing, and the size and alignment that rustc gives.
type Expected = (u64, usize, usize);

fn check(all: &mut impl Iterator<Item = Case>, length: usize, expected: [Expected; 5]) -> usize {
    for (packing, size, align) in expected {
        let case = all.next().expect("a case is missing");
        assert_eq!(case.packing().map_or(0, |packing| packing.get()), packing);
        assert_eq!(case.scalars().count(), length);
        let layout = for_repr_c_struct(None, case.packing(), &case.members()).expect("it is composed");
        assert_eq!(layout.size_info, SizeInfo::Sized { size: size as u64 }, "{case:?}");
        assert_eq!(layout.align, align as u64, "{case:?}");
    }
    expected.len()
}

/// The five types of a list of members.
macro_rules! list {
    ($all:ident; $length:literal; $($member:ty),*) => {{
        #[repr(C)]
        #[allow(dead_code)]
        struct Plain($($member),*);
        #[repr(C, packed(1))]
        #[allow(dead_code)]
        struct Packed1($($member),*);
        #[repr(C, packed(2))]
        #[allow(dead_code)]
        struct Packed2($($member),*);
        #[repr(C, packed(4))]
        #[allow(dead_code)]
        struct Packed4($($member),*);
        #[repr(C, packed(8))]
        #[allow(dead_code)]
        struct Packed8($($member),*);
        check(&mut $all, $length, [
            (0, size_of::<Plain>(), align_of::<Plain>()),
            (1, size_of::<Packed1>(), align_of::<Packed1>()),
            (2, size_of::<Packed2>(), align_of::<Packed2>()),
            (4, size_of::<Packed4>(), align_of::<Packed4>()),
            (8, size_of::<Packed8>(), align_of::<Packed8>()),
        ])
    }};
}

/// Every list with so many slots left, by member from the left.
macro_rules! lists {
    ($all:ident; $length:literal; []; $($member:ty),*) => { list!($all; $length; $($member),*) };
    ($all:ident; $length:literal; [slot $($slot:ident)*]; $($member:ty),*) => {
        lists!($all; $length; [$($slot)*]; $($member,)* u8)
            + lists!($all; $length; [$($slot)*]; $($member,)* u16)
            + lists!($all; $length; [$($slot)*]; $($member,)* u32)
            + lists!($all; $length; [$($slot)*]; $($member,)* u64)
    };
}

#[test]
fn as_rustc_lays_them_out() {
    let mut all = cases(4).expect("four is not too long").into_iter();
    let tried = lists!(all; 0; [];)
        + lists!(all; 1; [slot];)
        + lists!(all; 2; [slot slot];)
        + lists!(all; 3; [slot slot slot];)
        + lists!(all; 4; [slot slot slot slot];);
    assert_eq!(tried, 1_705);
    assert!(all.next().is_none());
}
