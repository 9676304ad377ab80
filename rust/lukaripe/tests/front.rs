//! The front part of a map or of its spare copy, pointer and bytes, against document 02's text written out plainly.

use lukaripe::{Layout, RoundingAlignAndPhase, SizeInfo, Trailing};

/// Numbers that look random, and repeat.
struct Random(u64);

impl Random {
    fn below(&mut self, limit: u64) -> u64 {
        self.0 = self.0.wrapping_mul(6_364_136_223_846_793_005).wrapping_add(1_442_695_040_888_963_407);
        (self.0 >> 33) % limit
    }
}

/// A layout of small numbers, also one that is none.
fn layout(random: &mut Random) -> Layout {
    let align = if random.below(16) == 0 { random.below(10) } else { 1 << random.below(5) };
    let size_info = if random.below(4) == 0 {
        SizeInfo::Sized { size: random.below(40) }
    } else {
        SizeInfo::SliceDst(Trailing {
            size_base: random.below(24),
            offset: random.below(24),
            elem_size: random.below(9),
            size_rounding_align_and_phase: RoundingAlignAndPhase(random.below(24)),
        })
    };
    Layout { align, size_info, statically_shallow_unpadded: random.below(2) == 0, align_modifier: false }
}

/// "the size of a trailing layout at count n is b + up(p + n·e, A)"
fn size_at(tail: Trailing, count: u128) -> u128 {
    let word = u128::from(tail.size_rounding_align_and_phase.0);
    let align = 1 << word.ilog2();
    let bytes = word - align + count * u128::from(tail.elem_size);
    u128::from(tail.size_base) + bytes.div_ceil(align) * align
}

/// The granted split of a prefix cast: the size at the greatest count whose size is at most the length.
fn split(layout: Layout, addr: u64, len: usize) -> Option<usize> {
    if !layout.align.is_power_of_two() {
        return None;
    }
    if let SizeInfo::SliceDst(tail) = layout.size_info {
        if tail.size_rounding_align_and_phase.0 == 0 || tail.elem_size == 0 {
            return None;
        }
    }
    if u128::from(addr) + len as u128 > u128::from(u64::MAX) || addr % layout.align != 0 {
        return None;
    }
    let size = match layout.size_info {
        SizeInfo::Sized { size } => u128::from(size),
        SizeInfo::SliceDst(tail) => {
            let counts = (0..).take_while(|count| size_at(tail, *count) <= len as u128);
            size_at(tail, counts.last()?)
        }
    };
    (size <= len as u128).then_some(size as usize)
}

#[test]
fn serves_the_part_of_document_02() {
    let mut random = Random(13);
    let bytes: Vec<u8> = (0..200).map(|byte| byte as u8).collect();
    let mut served = [0; 3];
    for _ in 0..2_000_000 {
        let layout = layout(&mut random);
        let (map_len, spare_len) = (random.below(80) as usize, random.below(80) as usize);
        // Either may be the same bytes as the other, or a part of them: only the pointer then tells which it is.
        let (map_at, spare_at) = (random.below(4) as usize, random.below(100) as usize);
        let (map, spare) = (&bytes[map_at..][..map_len], &bytes[spare_at..][..spare_len]);
        let addr = |random: &mut Random| match random.below(8) {
            0 => u64::MAX - random.below(90),
            1 => random.below(64),
            _ => random.below(8) * 16,
        };
        let (map_addr, spare_addr) = (addr(&mut random), addr(&mut random));

        // "The map serves when its prefix cast is granted, the spare when its own is and the map's is not."
        let (which, expected) = match (split(layout, map_addr, map_len), split(layout, spare_addr, spare_len)) {
            (Some(split), _) => (1, &map[..split]),
            (None, Some(split)) => (2, &spare[..split]),
            (None, None) => (0, &map[..0]),
        };
        let part = layout.front(map_addr, map, spare_addr, spare);
        assert_eq!(part.as_ptr(), expected.as_ptr(), "{layout:?} {map_addr} {map_len} {spare_addr} {spare_len}");
        assert_eq!(part, expected);
        served[which] += 1;
    }
    println!("neither {}, the map {}, the spare {}", served[0], served[1], served[2]);
    assert!(served.iter().all(|count| *count > 100_000));
}
