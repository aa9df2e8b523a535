//! Links the proved library.

use std::env;
use std::path::Path;

/// Names the folder of the static library. A relative name counts from the repository's root.
const LIBRARY_VARIABLE: &str = "LUCK_LIB";
const DEFAULT_LIBRARY: &str = "target/staticlib";

fn main() {
    println!("cargo::rerun-if-env-changed={LIBRARY_VARIABLE}");
    let root = Path::new(&env::var("CARGO_MANIFEST_DIR").unwrap()).join("../..");
    let folder = root.join(env::var(LIBRARY_VARIABLE).unwrap_or_else(|_| DEFAULT_LIBRARY.to_owned()));
    let archive = folder.join("libluck.a");
    println!("cargo::rerun-if-changed={}", archive.display());
    if !archive.is_file() {
        println!("cargo::error={} is not there", archive.display());
        println!(
            "cargo::error=run `tools/build luck` in the repository's root, or set {LIBRARY_VARIABLE} to the folder of libluck.a"
        );
    }
    println!("cargo::rustc-link-search=native={}", folder.display());
    println!("cargo::rustc-link-lib=static=luck");
}
