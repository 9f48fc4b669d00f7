//! Finds the proved library, `libcapi.a`, and links it.

use std::env;
use std::path::PathBuf;

const FOLDER_VARIABLE: &str = "LIROPUVA_LIB_DIR";
const FILE: &str = "libcapi.a";

fn main() {
    println!("cargo:rerun-if-env-changed={FOLDER_VARIABLE}");
    println!("cargo:rerun-if-changed=build.rs");
    let folder = folder();
    let file = folder.join(FILE);
    println!("cargo:rerun-if-changed={}", file.display());
    if !file.is_file() {
        eprintln!(
            "{} is missing: run `tools/build-capi` at the repository's root, \
             or set {FOLDER_VARIABLE} to the folder that holds {FILE}",
            file.display()
        );
        std::process::exit(1);
    }
    println!("cargo:rustc-link-search=native={}", folder.display());
    println!("cargo:rustc-link-lib=static=capi");
}

fn folder() -> PathBuf {
    match env::var_os(FOLDER_VARIABLE) {
        Some(folder) => PathBuf::from(folder),
        None => {
            let manifest = env::var_os("CARGO_MANIFEST_DIR").expect("cargo sets it");
            PathBuf::from(manifest).join("../../target/staticlib")
        }
    }
}
