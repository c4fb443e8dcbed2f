//! Links libsumqadil.a. It lies in the folder that SUMQADIL_LIB names, else in target/staticlib of the repository.

use std::path::PathBuf;

fn main() {
    let here = PathBuf::from(std::env::var("CARGO_MANIFEST_DIR").unwrap());
    let folder = std::env::var("SUMQADIL_LIB").map_or(here.join("../../target/staticlib"), PathBuf::from);
    let library = folder.join("libsumqadil.a");
    println!("cargo:rerun-if-env-changed=SUMQADIL_LIB");
    println!("cargo:rerun-if-changed={}", library.display());
    if !library.exists() {
        panic!("{} is not there: build it as README.md says, or name its folder in SUMQADIL_LIB", library.display());
    }
    println!("cargo:rustc-link-search=native={}", folder.display());
    println!("cargo:rustc-link-lib=static=sumqadil");
}
