//! What has the width of the numbers, at 64 bits: the exports, the inputs and the table. bits32.rs is the same at 32.

#[path = "cases.rs"]
mod cases;
#[path = "../lukaripe/src/exports.rs"]
pub mod exports;
#[path = "refused.rs"]
mod refused;
#[path = "rows.rs"]
mod rows;

pub use rows::rows;

type Word = u64;
