//! Finds the archive of the proved library: in the folder that FERIGULAN_LIB names, else where the repository builds it.
use std::env;
use std::path::{absolute, PathBuf};

const ARCHIVE: &str = "liblattice_c.a";

fn variable(name: &str) -> Option<PathBuf> {
    env::var_os(name).filter(|value| !value.is_empty()).map(PathBuf::from)
}

/// Where the archive should be, as an absolute path: cargo runs neither the linker nor the tests in the folder that it runs this program
/// in.
fn folder() -> PathBuf {
    let beside = || variable("CARGO_MANIFEST_DIR").expect("cargo names the crate's folder").with_file_name("target").join("staticlib");
    let folder = variable("FERIGULAN_LIB").unwrap_or_else(beside);
    absolute(&folder).unwrap_or(folder)
}

fn main() {
    println!("cargo::rerun-if-env-changed=FERIGULAN_LIB");
    let folder = folder();
    let archive = folder.join(ARCHIVE);
    println!("cargo::rerun-if-changed={}", archive.display());
    if !archive.is_file() {
        let how = format!("run 'sh archive.sh lattice_c' in the repository, or set FERIGULAN_LIB to a folder that has {ARCHIVE}");
        println!("cargo::error=there is no {}: {how}", archive.display());
        return;
    }
    println!("cargo::rustc-link-search=native={}", folder.display());
    println!("cargo::rustc-link-lib=static=lattice_c");
    // for tests/declarations.rs
    println!("cargo::rustc-env=FERIGULAN_ARCHIVE={}", archive.display());
}
