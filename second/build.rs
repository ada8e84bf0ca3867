//! Tells the linker where the static library for the tests is.

use std::{env, path::Path};

fn main() {
    let manifest_dir = env::var_os("CARGO_MANIFEST_DIR").expect("cargo sets it");
    let root = Path::new(&manifest_dir).parent().expect("a folder above");
    let folder = root.join("target").join("staticlib");
    let library = folder.join("libprimitives.a");
    println!("cargo:rustc-link-search=native={}", folder.display());
    println!("cargo:rerun-if-changed={}", library.display());
    println!("cargo:rerun-if-changed=build.rs");
}
