//! Finds the library: in the folder `MOVALIREN_LIB`, else where `rt lib` builds it in this repository, or in
//! the unpacked archive that this crate is part of, else where it is installed, by pkg-config.
//!
//! An installed library is the archive `libmovaliren.a`, or `libmovaliren.so` where there is no archive. The one
//! that `rt lib` builds is `libmovaliren_c.a`.
//!
//! The version of the library is that of pkg-config, or of the header where there is one. It must be of the same
//! interface as this crate.
//!
//! `cargo check` and `cargo doc` need no library, so where none is found this program warns. Then rustc is told to
//! link one that it does not find, and stops where it makes code.
use std::env;
use std::fs;
use std::path::{Path, PathBuf};
use std::process::Command;

const NOT_FOUND: &str = "\
the library of Movaliren was not found, so nothing links. Do one of these:
  - build it in the repository:  (cd crates/movaliren_c && rt lib)
  - install it, where pkg-config finds it:  make -C bindings/c install PREFIX=..
  - set MOVALIREN_LIB to the folder of libmovaliren.a, libmovaliren.so or libmovaliren_c.a, by its absolute path: of an
    unpacked archive it is lib";

/// A library's file, its kind for rustc, and its name.
const FILES: [(&str, &str, &str); 3] = [
    ("libmovaliren_c.a", "static", "movaliren_c"),
    ("libmovaliren.a", "static", "movaliren"),
    ("libmovaliren.so", "dylib", "movaliren"),
];

/// Where a library stands beside this crate, with its header: in the repository, and in an unpacked archive.
const BESIDE: [(&str, &str); 2] = [
    ("../../crates/movaliren_c/out", "../c/movaliren.h"),
    ("../../lib", "../../include/movaliren.h"),
];

fn folder_of(variable: &str) -> Option<PathBuf> {
    println!("cargo:rerun-if-env-changed={variable}");
    env::var_os(variable).map(PathBuf::from)
}

/// This path from the folder of this crate on.
fn beside(path: &str) -> PathBuf {
    let here = env::var_os("CARGO_MANIFEST_DIR").expect("cargo sets CARGO_MANIFEST_DIR");
    Path::new(&here).join(path)
}

/// What the command prints, without the space around it, if it succeeds and prints something.
fn printed(command: &mut Command) -> Option<String> {
    let output = command.output().ok()?;
    let text = String::from_utf8(output.stdout).ok()?.trim().to_owned();
    (output.status.success() && !text.is_empty()).then_some(text)
}

/// What pkg-config says of the library by this option.
fn asked(option: &str) -> Option<String> {
    println!("cargo:rerun-if-env-changed=PKG_CONFIG_PATH");
    let program = folder_of("PKG_CONFIG").unwrap_or_else(|| "pkg-config".into());
    printed(Command::new(program).args([option, "movaliren"]))
}

/// The folders that pkg-config names: after `-L`, and the folder of libraries, for which it prints no
/// `-L` where the linker looks there by itself.
fn folders_installed() -> Vec<PathBuf> {
    let flags = asked("--libs-only-L").unwrap_or_default();
    flags
        .split_whitespace()
        .filter_map(|flag| flag.strip_prefix("-L").map(PathBuf::from))
        .chain(asked("--variable=libdir").map(PathBuf::from))
        .collect()
}

/// The version in a header of the library, if it is one.
fn version_in(header: &Path) -> Option<String> {
    let text = fs::read_to_string(header).ok()?;
    println!("cargo:rerun-if-changed={}", header.display());
    let quoted = text.split("#define MOVALIREN_VERSION \"").nth(1)?;
    Some(quoted.split('"').next()?.to_owned())
}

/// The version of the header that stands beside a library in this folder, or where it is installed with it.
fn version_beside(folder: &Path) -> Option<String> {
    [".", "../include", "../../include"]
        .iter()
        .find_map(|place| version_in(&folder.join(place).join("movaliren.h")))
}

/// A version of three numbers.
fn numbers(version: &str) -> Option<[u64; 3]> {
    let mut parts = version.split('.').map(|part| part.parse().ok());
    let numbers = [parts.next()??, parts.next()??, parts.next()??];
    parts.next().is_none().then_some(numbers)
}

/// Whether a library of the version has what this crate calls: its first number, and where that is 0 its second, is
/// the same, and the version is not older.
fn has_calls(version: &str) -> bool {
    match (numbers(version), numbers(env!("CARGO_PKG_VERSION"))) {
        (Some(theirs), Some(ours)) => {
            let is_same = theirs[0] == ours[0] && (ours[0] > 0 || theirs[1] == ours[1]);
            is_same && theirs >= ours
        }
        _ => false,
    }
}

fn check_version(version: Option<String>, from: &str) -> Result<(), String> {
    match version {
        Some(version) if !has_calls(&version) => Err(format!(
            "the library of Movaliren has the version {version} by {from}, and this crate calls that of {}, so \
             nothing links. Install the library of this version",
            env!("CARGO_PKG_VERSION")
        )),
        _ => Ok(()),
    }
}

fn link(folder: &Path, file: &str, kind: &str, library: &str) {
    println!("cargo:rerun-if-changed={}", folder.join(file).display());
    println!("cargo:rustc-link-search=native={}", folder.display());
    println!("cargo:rustc-link-lib={kind}={library}");
}

/// A library of this folder.
fn library_of(folder: &Path) -> Option<&'static (&'static str, &'static str, &'static str)> {
    FILES.iter().find(|file| folder.join(file.0).exists())
}

/// Links the library of this folder, if it has one.
fn linked_in(folder: &Path) -> Result<(), String> {
    let (file, kind, library) = library_of(folder).ok_or(NOT_FOUND)?;
    link(folder, file, kind, library);
    Ok(())
}

fn linked_installed() -> Result<(), String> {
    let folders = folders_installed();
    let is_there = |folder: &&PathBuf| library_of(folder).is_some();
    let folder = folders.iter().find(is_there).ok_or(NOT_FOUND)?;
    check_version(asked("--modversion"), "pkg-config")?;
    linked_in(folder)
}

fn linked() -> Result<(), String> {
    if let Some(folder) = folder_of("MOVALIREN_LIB") {
        check_version(version_beside(&folder), "its header")?;
        return linked_in(&folder);
    }
    for (folder, header) in BESIDE {
        let folder = beside(folder);
        if library_of(&folder).is_some() {
            check_version(version_in(&beside(header)), "its header")?;
            return linked_in(&folder);
        }
    }
    linked_installed()
}

fn main() {
    println!("cargo:rerun-if-changed=build.rs");
    if let Err(reason) = linked() {
        for line in reason.lines() {
            println!("cargo:warning={line}");
        }
        println!("cargo:rustc-link-lib=static=movaliren");
        // There is no such file, so cargo runs this program again.
        println!("cargo:rerun-if-changed=libmovaliren.a");
    }
}
