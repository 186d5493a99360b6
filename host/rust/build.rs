// SPDX-License-Identifier: MPL-2.0
//! Finds the static library: in the folder that HLIDUNSK_LIB names, where `./install` has put it as
//! libhlidunsk.a, else in this repository, where `tests/library` has built it as libhub_c.a.

use std::env;
use std::path::{Path, PathBuf};

fn main() {
    println!("cargo:rerun-if-env-changed=HLIDUNSK_LIB");
    let (folder, name) = match env::var_os("HLIDUNSK_LIB") {
        Some(folder) => (PathBuf::from(folder), "hlidunsk"),
        None => (Path::new(env!("CARGO_MANIFEST_DIR")).join("../../crates/hub_c/out"), "hub_c"),
    };
    let library = folder.join(format!("lib{name}.a"));
    assert!(
        library.exists(),
        "{} is not here: run ./install PREFIX and set HLIDUNSK_LIB to PREFIX/lib",
        library.display()
    );
    println!("cargo:rerun-if-changed={}", library.display());
    println!("cargo:rustc-link-search=native={}", folder.display());
    println!("cargo:rustc-link-lib=static={name}");
}
