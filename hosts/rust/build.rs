//! Finds the archive that `tools/make archive` writes: target/staticlib of the repository, or the folder that VEGZUMP_LIB_DIR names.

use std::{env, path::PathBuf};

fn main() {
    let here = PathBuf::from(env::var_os("CARGO_MANIFEST_DIR").expect("cargo sets it"));
    let folder = env::var_os("VEGZUMP_LIB_DIR").map_or_else(|| here.join("../../target/staticlib"), PathBuf::from);
    let archive = folder.join("libvegzump.a");
    println!("cargo:rerun-if-env-changed=VEGZUMP_LIB_DIR");
    println!("cargo:rerun-if-changed={}", archive.display());
    if !archive.is_file() {
        panic!("no archive at {}: run `tools/make archive`, or set VEGZUMP_LIB_DIR", archive.display());
    }
    println!("cargo:rustc-link-search=native={}", folder.display());
    println!("cargo:rustc-link-lib=static=vegzump");
}
