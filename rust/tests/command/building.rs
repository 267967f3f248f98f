//! Building without the library.

use crate::folder;
use std::process::Command;

/// What the build script prints for a package in some folder, with the wrappers on.
fn printed(program: &std::path::Path, package: &std::path::Path) -> String {
    let output = Command::new(program)
        .env("CARGO_FEATURE_NATIVE", "1")
        .env("CARGO_MANIFEST_DIR", package)
        .output()
        .expect("the build script runs");
    assert!(output.status.success());
    String::from_utf8(output.stdout).expect("the build script prints text")
}

#[test]
fn without_the_library_cargo_says_what_to_run() {
    let folder = folder("building");
    let program = folder.join("build");
    let rustc = std::env::var("RUSTC").unwrap_or("rustc".to_string());
    let compiled = Command::new(rustc)
        .args(["--edition", "2021", "-o"])
        .arg(&program)
        .arg(concat!(env!("CARGO_MANIFEST_DIR"), "/build.rs"))
        .status()
        .expect("rustc runs");
    assert!(compiled.success());
    let said = "cargo::error=the proved library is missing: run 'tools/build-library' first";
    assert!(printed(&program, &folder).contains(said));
    let here = std::path::Path::new(env!("CARGO_MANIFEST_DIR"));
    assert!(!printed(&program, here).contains("error"));
}
