//! Links libsoftdemap.a, from the folder SOFTDEMAP_LIB_DIR or, where that is not set, from target/staticlib of the repository.

use std::path::{Path, PathBuf};
use std::{env, process};

const ARCHIVE: &str = "libsoftdemap.a";

fn folder() -> PathBuf {
    match env::var_os("SOFTDEMAP_LIB_DIR") {
        Some(folder) => PathBuf::from(folder),
        None => Path::new(&env::var_os("CARGO_MANIFEST_DIR").expect("cargo sets CARGO_MANIFEST_DIR")).join("../../target/staticlib"),
    }
}

fn main() {
    let folder = folder();
    let archive = folder.join(ARCHIVE);
    println!("cargo:rerun-if-env-changed=SOFTDEMAP_LIB_DIR");
    println!("cargo:rerun-if-changed=build.rs");
    println!("cargo:rerun-if-changed={}", archive.display());
    if !archive.is_file() {
        eprintln!("softdemap: there is no {}", archive.display());
        eprintln!(
            "softdemap: build it with `scripts/archive` in the repository, or set SOFTDEMAP_LIB_DIR to the folder that has it"
        );
        process::exit(1);
    }
    let folder = folder.canonicalize().unwrap_or(folder);
    println!("cargo:rustc-link-search=native={}", folder.display());
    println!("cargo:rustc-link-lib=static=softdemap");
}
