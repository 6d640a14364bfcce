//! Finds libboltmarrow.a: in the folder that BOLTMARROW_LIB names, else in target/staticlib of the repository.
use std::env;
use std::path::{Path, PathBuf};

fn main() {
    println!("cargo:rerun-if-env-changed=BOLTMARROW_LIB");
    let here = env::var_os("CARGO_MANIFEST_DIR").expect("cargo names the crate's folder");
    let folder = match env::var_os("BOLTMARROW_LIB") {
        Some(folder) => PathBuf::from(folder),
        None => Path::new(&here).join("../../target/staticlib"),
    };
    let archive = folder.join("libboltmarrow.a");
    assert!(
        archive.is_file(),
        "{} is missing: bin/library builds it; BOLTMARROW_LIB names another folder",
        archive.display()
    );
    println!("cargo:rerun-if-changed={}", archive.display());
    println!("cargo:rustc-link-search=native={}", folder.display());
    println!("cargo:rustc-link-lib=static=boltmarrow");
}
