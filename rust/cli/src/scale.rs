//! Cells for bytes: how wide each piece of a bar is, and how the bar is folded into lines.

/// What a drawing has room for.
pub struct Room {
    /// The cells of a line.
    pub line: u64,
    /// The fewest cells of a piece.
    pub least: u64,
    /// The most cells of a byte.
    pub most: u64,
    /// How many pieces there are to a line before there are more lines: at most `line / least`.
    pub pieces: u64,
}

#[derive(Debug, PartialEq, Eq)]
pub enum Scale {
    /// Each byte has so many cells.
    Byte(u64),
    /// Each piece has its share of all cells, to within a cell.
    Share,
    /// So many pieces are wider than their share, so that they are seen.
    Widened(usize),
}

/// The cells of each piece.
#[derive(Debug, PartialEq, Eq)]
pub struct Shared {
    pub cells: Vec<u64>,
    /// The cells of a line: whole bytes, where a byte has a cell or more.
    pub line: u64,
    pub scale: Scale,
}

/// Shares the room out among pieces that have a byte or more each.
pub fn share(bytes: &[u128], room: &Room) -> Shared {
    let total: u128 = bytes.iter().sum();
    let lines = (bytes.len() as u64).div_ceil(room.pieces).max(1);
    let space = u128::from(room.line) * u128::from(lines);
    let least = u128::from(room.least);
    // Bytes that have whole cells are worth some lines more, where there are several.
    let most_space = if lines > 1 { 2 * space } else { space };
    if total * least <= most_space {
        let per_byte = (space / total.max(1)).clamp(least, room.most.min(room.line).into());
        let cells = bytes.iter().map(|bytes| (bytes * per_byte) as u64).collect();
        let per_byte = per_byte as u64;
        return Shared { cells, line: room.line / per_byte * per_byte, scale: Scale::Byte(per_byte) };
    }
    // What is too small gets the fewest cells, and the others share the rest, until none of them is too small.
    let mut cells = vec![0; bytes.len()];
    let (mut left, mut left_bytes) = (space, total);
    loop {
        let (now, now_bytes) = (left, left_bytes);
        for (cells, bytes) in cells.iter_mut().zip(bytes) {
            if *cells == 0 && bytes * now < least * now_bytes {
                *cells = room.least;
                left -= least;
                left_bytes -= bytes;
            }
        }
        if left == now {
            break;
        }
    }
    let widened = cells.iter().filter(|cells| **cells > 0).count();
    // Each ends at the cell that is nearest to its end.
    let (mut sum, mut before) = (0, 0);
    for (cells, bytes) in cells.iter_mut().zip(bytes).filter(|(cells, _)| **cells == 0) {
        sum += bytes;
        let end = (2 * sum * left + left_bytes) / (2 * left_bytes);
        *cells = (end - before) as u64;
        before = end;
    }
    let scale = if widened > 0 { Scale::Widened(widened) } else { Scale::Share };
    Shared { cells, line: room.line, scale }
}

/// What a line has of a piece.
#[derive(Debug, PartialEq, Eq)]
pub struct Fragment {
    pub piece: usize,
    /// Where it starts in its line.
    pub at: u64,
    pub cells: u64,
    /// Whether the piece starts here, and whether it ends here.
    pub first: bool,
    pub last: bool,
}

/// Folds the pieces into lines.
pub fn fold(cells: &[u64], line: u64) -> Vec<Vec<Fragment>> {
    let mut lines = vec![Vec::new()];
    let mut at = 0;
    for (piece, all) in cells.iter().enumerate() {
        let mut rest = *all;
        while rest > 0 {
            if at == line {
                lines.push(Vec::new());
                at = 0;
            }
            let here = rest.min(line - at);
            let fragment = Fragment { piece, at, cells: here, first: rest == *all, last: rest == here };
            lines.last_mut().expect("there is a line").push(fragment);
            at += here;
            rest -= here;
        }
    }
    lines
}

#[cfg(test)]
mod tests {
    use super::*;

    const ROOM: Room = Room { line: 80, least: 1, most: 8, pieces: 16 };

    #[test]
    fn bytes_have_whole_cells() {
        let shared = share(&[8, 1, 2], &ROOM);
        assert_eq!(shared, Shared { cells: vec![56, 7, 14], line: 77, scale: Scale::Byte(7) });
        assert_eq!(share(&[1], &ROOM).cells, [8]);
        assert_eq!(share(&[80], &ROOM), Shared { cells: vec![80], line: 80, scale: Scale::Byte(1) });
        assert_eq!(share(&[], &ROOM).cells, []);
        // 240 bytes on three lines, as two have too few cells.
        let shared = share(&[8; 30], &ROOM);
        assert_eq!((shared.cells, shared.scale), (vec![8; 30], Scale::Byte(1)));
        assert_eq!(share(&[8; 10], &Room { least: 6, most: 96, line: 912, pieces: 16 }).cells, [88; 10]);
        assert_eq!(share(&[8; 41], &Room { least: 6, most: 96, line: 912, pieces: 16 }).cells, [64; 41]);
    }

    #[test]
    fn more_bytes_than_cells_have_their_share() {
        let shared = share(&[80, 80], &ROOM);
        assert_eq!((shared.cells, shared.scale), (vec![40, 40], Scale::Share));
        // The ends are at 19.8 and 40.3.
        let shared = share(&[30, 31, 60], &ROOM);
        assert_eq!((shared.cells, shared.scale), (vec![20, 20, 40], Scale::Share));
    }

    #[test]
    fn what_is_small_is_seen() {
        let shared = share(&[1, 1 << 40, 1], &ROOM);
        assert_eq!((shared.cells, shared.scale), (vec![1, 78, 1], Scale::Widened(2)));
        // Once the small ones have a cell, another is below one.
        let shared = share(&[100, 1, 1, 1, 7900], &ROOM);
        assert_eq!((shared.cells, shared.scale), (vec![1, 1, 1, 1, 76], Scale::Widened(4)));
    }

    #[test]
    fn the_greatest_numbers() {
        let most = u128::from(u64::MAX);
        assert_eq!(share(&[most], &ROOM).cells, [80]);
        assert_eq!(share(&[most, 2 * most], &ROOM).cells, [27, 53]);
        assert_eq!(share(&[1, 2 * most], &ROOM).cells, [1, 79]);
    }

    #[test]
    fn all_cells_are_given_out_and_none_is_empty() {
        let mut bytes = 1_u128;
        for pieces in 1..200 {
            let list: Vec<u128> = (0..pieces)
                .map(|_| {
                    bytes = (bytes * 6364136223846793005 + 1442695040888963407) % (1 << 64);
                    1 + (bytes >> (bytes % 64))
                })
                .collect();
            let shared = share(&list, &ROOM);
            let lines = list.len().div_ceil(16) as u64;
            assert!(shared.cells.iter().all(|cells| *cells > 0));
            if !matches!(shared.scale, Scale::Byte(_)) {
                assert_eq!(shared.cells.iter().sum::<u64>(), 80 * lines);
            }
            let folded = fold(&shared.cells, shared.line);
            assert!(folded.iter().all(|line| line.iter().map(|part| part.cells).sum::<u64>() <= 80));
        }
    }

    #[test]
    fn folded() {
        let part = |piece, at, cells, first, last| Fragment { piece, at, cells, first, last };
        assert_eq!(
            fold(&[3, 2], 4),
            [vec![part(0, 0, 3, true, true), part(1, 3, 1, true, false)], vec![part(1, 0, 1, false, true)],]
        );
        assert_eq!(fold(&[4], 4), [vec![part(0, 0, 4, true, true)]]);
        assert_eq!(fold(&[], 4), [vec![]]);
    }
}
