//! Finds the proved library's archive: in the folder that DUCKHAMMOCK_LIB
//! names, or where `bin/library` writes it.

use std::env;
use std::path::{Path, PathBuf};
use std::process::exit;

const ARCHIVE: &str = "libduckhammock.a";

fn main() {
    println!("cargo:rerun-if-env-changed=DUCKHAMMOCK_LIB");
    let folder = env::var_os("DUCKHAMMOCK_LIB").map_or_else(default_folder, PathBuf::from);
    let archive = folder.join(ARCHIVE);
    println!("cargo:rerun-if-changed={}", archive.display());
    let Ok(archive) = archive.canonicalize() else {
        eprintln!(
            "There is no {}: write it by `bin/library` at the repository's root, \
             or name its folder in DUCKHAMMOCK_LIB.",
            archive.display()
        );
        exit(1);
    };
    let folder = archive.parent().unwrap_or(Path::new("/"));
    println!("cargo:rustc-link-search=native={}", folder.display());
    println!("cargo:rustc-link-lib=static=duckhammock");
}

fn default_folder() -> PathBuf {
    let package = env::var_os("CARGO_MANIFEST_DIR").unwrap_or_default();
    Path::new(&package).join("../../target/staticlib")
}
