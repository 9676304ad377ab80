//! The program of the bench; the bench itself stands in the oracle's crate, since it calls the Rust with its own types.

// So many bytes before all other code, so that programs differ in where their functions stand.
core::arch::global_asm!(
    ".pushsection .text.bench_padding, \"axR\", @progbits",
    concat!(".zero ", env!("BENCH_PADDING")),
    ".popsection"
);

fn main() -> std::process::ExitCode {
    oracle::bench::main()
}
