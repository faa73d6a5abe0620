//! Links libcapi.a from the folder in TUSQIRMA_LIB, or else from the repository's target/staticlib.
use std::path::PathBuf;

fn main() {
    let root = PathBuf::from(std::env::var_os("CARGO_MANIFEST_DIR").expect("set by cargo"));
    let folder = match std::env::var_os("TUSQIRMA_LIB") {
        Some(folder) => PathBuf::from(folder),
        None => root.join("../../target/staticlib"),
    };
    let archive = folder.join("libcapi.a");
    assert!(
        archive.is_file(),
        "{} is missing: 'tools/build capi' writes it, or TUSQIRMA_LIB names its folder",
        archive.display()
    );
    println!("cargo:rustc-link-search=native={}", folder.display());
    println!("cargo:rustc-link-lib=static=capi");
    println!("cargo:rerun-if-changed={}", archive.display());
    println!("cargo:rerun-if-env-changed=TUSQIRMA_LIB");
    println!("cargo:rerun-if-changed=build.rs");
}
