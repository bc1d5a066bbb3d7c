//! Links the archive of the proved port: libabi.a in the folder that ANSEDGUL_LIB names, or where `compare/archive` writes it.

use std::{env, path::PathBuf};

fn main() {
    let here = PathBuf::from(env::var_os("CARGO_MANIFEST_DIR").expect("cargo sets it"));
    let folder = env::var_os("ANSEDGUL_LIB").map_or_else(|| here.join("../../target/staticlib"), PathBuf::from);
    let archive = folder.join("libabi.a");
    assert!(archive.exists(), "no {}: make it by `compare/archive`", archive.display());
    println!("cargo::rerun-if-env-changed=ANSEDGUL_LIB");
    println!("cargo::rerun-if-changed={}", archive.display());
    println!("cargo::rustc-link-search=native={}", folder.display());
    println!("cargo::rustc-link-lib=static=abi");
}
