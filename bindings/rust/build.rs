//! Finds libfluent: in the folder that FLUENT_LIBRARY_DIR names, else where `./build libfluent` puts it. An archive is linked
//! in whole; a shared library is copied to where cargo's own programs look for it. It must be of this crate's version, since its
//! structs are written out in src/ffi.rs.

use std::env;
use std::fs;
use std::path::{Path, PathBuf};

fn main() {
    println!("cargo:rerun-if-env-changed=FLUENT_LIBRARY_DIR");
    let folder = folder();
    if let Some(other) = other_version(&folder) {
        println!("cargo:warning=libfluent in {} is {other}", folder.display());
        std::process::exit(1);
    }
    if folder.join("libfluent.a").is_file() {
        rerun_if_changed(&folder.join("libfluent.a"));
        link(&folder, "static");
    } else if folder.join("libfluent.so").is_file() {
        rerun_if_changed(&folder.join("libfluent.so"));
        link(&copied(&folder), "dylib");
    } else {
        println!(
            "cargo:warning=no libfluent in {}: run ./build libfluent, or set FLUENT_LIBRARY_DIR",
            folder.display()
        );
    }
}

fn folder() -> PathBuf {
    match env::var_os("FLUENT_LIBRARY_DIR") {
        Some(folder) => PathBuf::from(folder),
        None => Path::new(env!("CARGO_MANIFEST_DIR")).join("../../crates/fluent_c/out"),
    }
}

/// The version that the header beside the library tells, where it is not this crate's.
fn other_version(folder: &Path) -> Option<String> {
    let header = fs::read_to_string(folder.join("fluent.h")).ok()?;
    let line = header
        .lines()
        .find(|line| line.starts_with("#define FLUENT_VERSION"))?;
    let version = line.split('"').nth(1)?;
    (version != env!("CARGO_PKG_VERSION")).then(|| version.to_string())
}

fn rerun_if_changed(file: &Path) {
    println!("cargo:rerun-if-changed={}", file.display());
}

fn link(folder: &Path, kind: &str) {
    println!("cargo:rustc-link-search=native={}", folder.display());
    println!("cargo:rustc-link-lib={kind}=fluent");
}

/// The folder of this build, with the shared library in it under both of its names.
fn copied(folder: &Path) -> PathBuf {
    let to = PathBuf::from(env::var_os("OUT_DIR").unwrap_or_default());
    for name in ["libfluent.so", "libfluent.so.0"] {
        if let Err(fault) = fs::copy(folder.join("libfluent.so"), to.join(name)) {
            println!("cargo:warning=libfluent.so can't be copied: {fault}");
        }
    }
    to
}
