//! For the build scripts of the crates that are luck's: writes a crate root that declares luck's own files as modules,
//! so that they are compiled where they stand, unchanged. Of a file that can't be compiled whole, functions are cut out.

use std::env;
use std::fmt::Write as _;
use std::fs;
use std::path::{Path, PathBuf};

/// Names the folder that has luck's `crates/`. A relative name counts from the repository's root.
const SOURCE_VARIABLE: &str = "LUCK_SRC";
const DEFAULT_SOURCE: &str = "../shared/docs/src";

/// Writes `OUT_DIR/root.rs`, which declares each of the modules of luck's crate `name`.
///
/// # Panics
///
/// When the folder lacks a module, or the root can't be written: the build cannot go on.
pub fn write_crate_root(name: &str, modules: &[&str]) {
    let mut root = String::new();
    for module in modules {
        let file = source_file(name, module).display().to_string();
        writeln!(root, "#[path = {file:?}]\nmod {module};").unwrap();
    }
    write_output("root.rs", &root);
}

/// Writes `OUT_DIR/functions.rs`: the named functions of one file of luck's crate `name`, each with its comment, byte
/// for byte.
///
/// # Panics
///
/// When the file is not there or has not exactly one function of each name, or the functions can't be written.
pub fn write_functions(name: &str, module: &str, functions: &[&str]) {
    let file = source_file(name, module);
    let source = fs::read_to_string(&file).unwrap_or_else(|error| panic!("{}: {error}", file.display()));
    let texts = functions.iter().map(|function| {
        function_text(&source, function).unwrap_or_else(|| panic!("{}: not one function `{function}`", file.display()))
    });
    write_output("functions.rs", &texts.collect::<Vec<_>>().join("\n"));
}

/// The function at the outermost level: from its first comment line to the first line that is a closing brace.
fn function_text<'source>(source: &'source str, function: &str) -> Option<&'source str> {
    let opening = format!("\nfn {function}(");
    let (before, behind) = source.split_once(&opening)?;
    if behind.contains(&opening) {
        return None;
    }
    let body_end = before.len() + opening.len() + behind.find("\n}\n")? + "\n}\n".len();
    let mut start = before.len() + 1;
    for line in before.lines().rev().take_while(|line| line.starts_with("///")) {
        start -= line.len() + 1;
    }
    source.get(start..body_end)
}

fn source_file(name: &str, module: &str) -> PathBuf {
    let folder = source_folder().join("crates").join(name).join("src");
    println!("cargo:rerun-if-changed={}", folder.display());
    let file = folder.join(module).with_extension("rs");
    file.canonicalize().unwrap_or_else(|error| panic!("{}: {error} (set {SOURCE_VARIABLE})", file.display()))
}

fn write_output(file: &str, text: &str) {
    fs::write(Path::new(&variable("OUT_DIR")).join(file), text).unwrap();
}

fn source_folder() -> PathBuf {
    println!("cargo:rerun-if-env-changed={SOURCE_VARIABLE}");
    let folder = env::var(SOURCE_VARIABLE).unwrap_or_else(|_| DEFAULT_SOURCE.to_owned());
    repository_root().join(folder)
}

/// The root of the repository that the crate being built stands in, as `oracle/NAME`.
fn repository_root() -> PathBuf {
    Path::new(&variable("CARGO_MANIFEST_DIR")).join("../..")
}

fn variable(name: &str) -> String {
    env::var(name).unwrap_or_else(|_| panic!("cargo sets {name} for a build script"))
}
