//! Numbers that hang on a count n, in letters.

/// A number, and so much more for each of n: as `2 + 3n`.
pub fn sum(constant: u64, factor: u64) -> String {
    let each = if factor == 1 { "n".to_string() } else { format!("{factor}n") };
    match (constant, factor) {
        (_, 0) => constant.to_string(),
        (0, _) => each,
        _ => format!("{constant} + {each}"),
    }
}

/// The same, rounded up to a multiple of an alignment, upon a base.
pub fn rounded(base: u64, constant: u64, factor: u64, align: u64) -> String {
    let up = format!("up({}, {align})", sum(constant, factor));
    match (base, align) {
        // Each number is a multiple of 1, and no phase is below it but 0.
        (_, 1) => sum(base, factor),
        (0, _) => up,
        _ => format!("{base} + {up}"),
    }
}

#[cfg(test)]
mod tests {
    use super::*;

    #[test]
    fn sums() {
        assert_eq!(sum(2, 3), "2 + 3n");
        assert_eq!(sum(2, 1), "2 + n");
        assert_eq!(sum(0, 3), "3n");
        assert_eq!(sum(0, 1), "n");
        assert_eq!(sum(2, 0), "2");
        assert_eq!(sum(0, 0), "0");
    }

    #[test]
    fn roundings() {
        assert_eq!(rounded(8, 1, 4, 8), "8 + up(1 + 4n, 8)");
        assert_eq!(rounded(0, 0, 1, 2), "up(n, 2)");
        assert_eq!(rounded(12, 0, 4, 1), "12 + 4n");
        assert_eq!(rounded(8, 0, 0, 1), "8");
    }
}
