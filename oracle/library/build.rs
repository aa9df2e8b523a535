//! Links the proved library for hosts and, where they are asked for, the token crate's functions.

use std::env;
use std::path::Path;

/// Names the folder of the static libraries. A relative name counts from the repository's root.
const LIBRARY_VARIABLE: &str = "LUCK_LIB";
const DEFAULT_LIBRARY: &str = "target/staticlib";
const HOSTS: &str = "luck";
const TOKEN: &str = "luck_token_exports";
/// Says to the crate which archive it is linked with.
const ARCHIVE_VARIABLE: &str = "LUCK_ARCHIVE";

fn main() {
    println!("cargo:rerun-if-env-changed={LIBRARY_VARIABLE}");
    let root = Path::new(&env::var("CARGO_MANIFEST_DIR").unwrap()).join("../..");
    let folder = root.join(env::var(LIBRARY_VARIABLE).unwrap_or_else(|_| DEFAULT_LIBRARY.to_owned()));
    println!("cargo:rustc-link-search=native={}", folder.display());
    println!("cargo:rustc-env={ARCHIVE_VARIABLE}={}", folder.join(format!("lib{HOSTS}.a")).display());
    link(&folder, HOSTS);
    if env::var_os("CARGO_FEATURE_TOKEN").is_some() {
        link(&folder, TOKEN);
    }
}

fn link(folder: &Path, library: &str) {
    let archive = folder.join(format!("lib{library}.a"));
    println!("cargo:rerun-if-changed={}", archive.display());
    assert!(archive.is_file(), "{}: no such library (tools/build {library}, or set {LIBRARY_VARIABLE})", archive.display());
    println!("cargo:rustc-link-lib=static={library}");
}
