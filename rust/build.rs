//! Links target/staticlib/libcapi.a, which `bash tools/build library` makes at the repository's root.

use std::path::Path;

fn main() {
    let root = Path::new(env!("CARGO_MANIFEST_DIR")).parent().expect("the repository");
    let library = root.join("target/staticlib");
    let archive = library.join("libcapi.a");
    assert!(
        archive.exists(),
        "libcapi.a is missing: run `bash tools/build library` at the repository's root"
    );
    println!("cargo:rerun-if-changed={}", archive.display());
    println!("cargo:rustc-link-search=native={}", library.display());
    println!("cargo:rustc-link-lib=static=capi");
}
