// SPDX-License-Identifier: Apache-2.0 OR MIT
//! Finds the archive: in the folder that CLOCKBOARD_LIB_DIR names, as libclockboard.a or as bin/c-library names it; else the
//! released one of this repository; else where `bin/c-library` leaves one; else where bin/install put it, for a crate that it
//! installed. It is copied, so that it has one name to the linker.
use std::env;
use std::fs;
use std::path::{Path, PathBuf};

fn main() {
    println!("cargo:rerun-if-env-changed=CLOCKBOARD_LIB_DIR");
    let archive = archive();
    println!("cargo:rerun-if-changed={}", archive.display());
    let folder = PathBuf::from(env::var_os("OUT_DIR").expect("cargo sets OUT_DIR"));
    fs::copy(&archive, folder.join("libclockboard.a"))
        .unwrap_or_else(|error| panic!("{}: {error}", archive.display()));
    println!("cargo:rustc-link-search=native={}", folder.display());
    println!("cargo:rustc-link-lib=static=clockboard");
}

/// The archive that is linked.
fn archive() -> PathBuf {
    let top = Path::new(env!("CARGO_MANIFEST_DIR")).join("../..");
    let places = match env::var_os("CLOCKBOARD_LIB_DIR").map(PathBuf::from) {
        Some(folder) => vec![
            folder.join("libclockboard.a"),
            folder.join("libclockboard_c.a"),
        ],
        None => vec![
            top.join("release/libclockboard-x86_64-linux.a"),
            top.join("crates/clockboard_c/out/c/libclockboard_c.a"),
            top.join("../../lib/libclockboard.a"),
            top.join("../../lib/x86_64-linux-gnu/libclockboard.a"),
        ],
    };
    let first = places[0].clone();
    places
        .into_iter()
        .find(|place| place.is_file())
        .unwrap_or(first)
}
