//! The names of the scalars.

/// In the order of their codes.
pub const SCALARS: [&str; 9] = ["u8", "u16", "u32", "u64", "f32", "f64", "char", "bool", "usize"];
const SIGNED: [&str; 5] = ["i8", "i16", "i32", "i64", "isize"];

/// Of a signed integer what to use instead, in a word that has it.
pub fn other_than(scalar: &str, word: &str) -> Option<String> {
    let other = word.replacen('i', "u", 1);
    let said = format!("signed integers have no code; use {other}, which has the same size and alignment");
    SIGNED.contains(&scalar).then_some(said)
}
