//! Tells cargo where the proved library is.

use std::env;
use std::path::{Path, PathBuf};

const ARCHIVE: &str = "libpolungaw.a";
const PLACE: &str = "POLUNGAW_LIB_DIR";

fn main() {
    let folder = folder();
    let archive = folder.join(ARCHIVE);
    println!("cargo:rerun-if-env-changed={PLACE}");
    println!("cargo:rerun-if-changed={}", archive.display());
    if !archive.is_file() {
        eprintln!(
            "{} is missing. Make it with `rt lib` in crates/polungaw, \
             or name its folder in {PLACE}.",
            archive.display()
        );
        std::process::exit(1);
    }
    println!("cargo:rustc-link-search=native={}", folder.display());
    println!("cargo:rustc-link-lib=static=polungaw");
}

fn folder() -> PathBuf {
    env::var_os(PLACE).map_or_else(
        || Path::new(env!("CARGO_MANIFEST_DIR")).join("../crates/polungaw/out"),
        PathBuf::from,
    )
}
