// SPDX-License-Identifier: MPL-2.0
//! Compiles src/through.c, by which every call goes through include/hub.h; by TARGET_CC and TARGET_AR
//! where the library's machine is not the one at hand (tests/machine sets them).

use std::env;
use std::path::Path;
use std::process::Command;

fn run(program: &str, arguments: &[&str]) {
    let status = Command::new(program).args(arguments).status();
    assert!(status.is_ok_and(|status| status.success()), "{program} {arguments:?}");
}

/// A tool for the library's machine.
fn tool(variable: &str, usual: &str) -> String {
    println!("cargo:rerun-if-env-changed={variable}");
    env::var(variable).unwrap_or_else(|_| usual.into())
}

fn main() {
    let root = Path::new(env!("CARGO_MANIFEST_DIR"));
    let (source, include) = (root.join("src/through.c"), root.join("../../include"));
    let out = env::var("OUT_DIR").expect("cargo sets it");
    let (object, library) = (format!("{out}/through.o"), format!("{out}/libthrough.a"));
    let (source_name, include_name) = (source.display().to_string(), include.display().to_string());
    let strict = ["-std=c99", "-Wall", "-Wextra", "-pedantic", "-Werror", "-O2", "-g", "-fPIC"];
    let files = ["-I", &include_name, "-c", &source_name, "-o", &object];
    run(&tool("TARGET_CC", "cc"), &[&strict[..], &files].concat());
    run(&tool("TARGET_AR", "ar"), &["crs", &library, &object]);
    println!("cargo:rerun-if-changed={source_name}");
    println!("cargo:rerun-if-changed={include_name}/hub.h");
    println!("cargo:rustc-link-search=native={out}");
    println!("cargo:rustc-link-lib=static=through");
}
