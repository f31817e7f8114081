//! Links the proved library: of `NACHRICHT_LIB_DIR`, or as `bindings/build` writes it.

use std::env;
use std::path::{Path, PathBuf};

const FOLDER: &str = "NACHRICHT_LIB_DIR";

fn main() {
    let folder = env::var_os(FOLDER).map_or_else(built_here, PathBuf::from);
    let library = folder.join("libnachricht.a");
    if !library.exists() {
        let library = library.display();
        println!("cargo:warning={library} is missing: `bindings/build` builds it, {FOLDER} names its folder");
    }
    println!("cargo:rerun-if-env-changed={FOLDER}");
    println!("cargo:rerun-if-changed={}", library.display());
    println!("cargo:rustc-link-search=native={}", folder.display());
    println!("cargo:rustc-link-lib=static=nachricht");
}

fn built_here() -> PathBuf {
    let manifest = env::var("CARGO_MANIFEST_DIR").expect("cargo sets it");
    Path::new(&manifest).join("../../target/staticlib")
}
