//! Links the proved library: `libdaxurbi.a` of the folder `DAXURBI_LIB_DIR`, else of the crate
//! `daxurbi` of this repository, where `rt lib` makes it.

use std::env;
use std::path::{Path, PathBuf};

fn main() {
    println!("cargo:rerun-if-changed=build.rs");
    println!("cargo:rerun-if-env-changed=DAXURBI_LIB_DIR");
    let folder = env::var_os("DAXURBI_LIB_DIR").map_or_else(default_folder, PathBuf::from);
    let archive = folder.join("libdaxurbi.a");
    println!("cargo:rerun-if-changed={}", archive.display());
    if !archive.is_file() {
        println!("cargo:warning={} is missing", archive.display());
    }
    println!("cargo:rustc-link-search=native={}", folder.display());
    println!("cargo:rustc-link-lib=static=daxurbi");
}

fn default_folder() -> PathBuf {
    Path::new(env!("CARGO_MANIFEST_DIR")).join("../../crates/daxurbi/out")
}
