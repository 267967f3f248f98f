//! Links the static library of the C interface when the feature `native` is on,
//! and joins the page that the command writes.

#[path = "build/page.rs"]
mod page;

use std::path::Path;

fn main() {
    println!("cargo:rerun-if-changed=build.rs");
    println!("cargo:rerun-if-changed=build/page.rs");
    if std::env::var_os("CARGO_FEATURE_NATIVE").is_none() {
        return;
    }
    let package = std::env::var("CARGO_MANIFEST_DIR").expect("cargo names the package's folder");
    let folder = Path::new(&package).join("../target/staticlib");
    let library = folder.join("libcapi.a");
    println!("cargo:rerun-if-changed={}", library.display());
    if !library.exists() {
        println!("cargo::error=the proved library is missing: run 'tools/build-library' first");
        return;
    }
    println!("cargo:rustc-link-search=native={}", folder.display());
    println!("cargo:rustc-link-lib=static=capi");
    let out = std::env::var("OUT_DIR").expect("cargo names a folder for what is built");
    page::build(&Path::new(&package).join(".."), Path::new(&out));
}
