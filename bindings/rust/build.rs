//! Links `libskrapnefja.a` from the folder that `SKRAPNEFJA_LIB_DIR` names, or
//! else from `target/staticlib` of the repository.

use std::env;
use std::path::{Path, PathBuf};

const FOLDER: &str = "SKRAPNEFJA_LIB_DIR";

fn main() {
    let manifest_dir = env::var_os("CARGO_MANIFEST_DIR").expect("cargo sets it");
    let default = Path::new(&manifest_dir).join("../../target/staticlib");
    let folder = env::var_os(FOLDER).map_or(default, PathBuf::from);
    let library = folder.join("libskrapnefja.a");
    println!("cargo::rustc-link-search=native={}", folder.display());
    println!("cargo::rustc-link-lib=static=skrapnefja");
    println!("cargo::rerun-if-changed={}", library.display());
    println!("cargo::rerun-if-env-changed={FOLDER}");
    println!("cargo::rerun-if-changed=build.rs");
}
