//! Links liblukaripe.a, which tools/library makes. LUKARIPE_LIB_DIR names its folder where that is another.

use std::path::PathBuf;
use std::{env, process};

const ARCHIVE: &str = "liblukaripe.a";

fn main() {
    println!("cargo:rerun-if-env-changed=LUKARIPE_LIB_DIR");
    let named = env::var_os("LUKARIPE_LIB_DIR").map(PathBuf::from);
    // A build script starts in the folder of its package.
    let folder = named.unwrap_or_else(|| PathBuf::from("../../target/staticlib"));
    let Some(found) = folder.canonicalize().ok().filter(|found| found.join(ARCHIVE).is_file()) else {
        eprintln!("no {ARCHIVE} in {}: run tools/library, or name its folder in LUKARIPE_LIB_DIR", folder.display());
        process::exit(1);
    };
    println!("cargo:rerun-if-changed={}", found.join(ARCHIVE).display());
    println!("cargo:rustc-link-search=native={}", found.display());
    println!("cargo:rustc-link-lib=static=lukaripe");
}
