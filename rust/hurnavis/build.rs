//! Links the archive libhurnavis.a that `rust/archive` writes, or the one in the directory HURNAVIS_LIB_DIR.

use std::env;
use std::path::{Path, PathBuf};

fn main() {
    let dir = archive_dir();
    let archive = dir.join("libhurnavis.a");
    println!("cargo::rerun-if-env-changed=HURNAVIS_LIB_DIR");
    println!("cargo::rerun-if-changed={}", archive.display());
    if !archive.is_file() {
        println!("cargo::error=no archive at {}", archive.display());
        println!("cargo::error=to make it, run `rust/archive` at the repository's root: it needs `rt`, the command of the Rattle toolchain");
        println!("cargo::error=to link one that is made already, set HURNAVIS_LIB_DIR to the directory of its libhurnavis.a");
        return;
    }
    println!("cargo::rustc-link-search=native={}", dir.display());
    println!("cargo::rustc-link-lib=static=hurnavis");
}

/// An absolute path, so that it means the same to everybody who reads it. Where a given one is not, it starts at the package.
fn archive_dir() -> PathBuf {
    let package = package_dir();
    match env::var_os("HURNAVIS_LIB_DIR") {
        Some(dir) if !dir.is_empty() => package.join(dir),
        _ => repository(&package).join("target/staticlib"),
    }
}

/// The package stands in `rust/hurnavis`.
fn repository(package: &Path) -> &Path {
    package.ancestors().nth(2).unwrap_or(package)
}

/// Read when the script runs: a path compiled in would follow a copied target directory to the tree it came from.
fn package_dir() -> PathBuf {
    PathBuf::from(env::var_os("CARGO_MANIFEST_DIR").expect("cargo names the package's directory"))
}
