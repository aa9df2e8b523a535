//! Checks a pattern for every version: `cargo run --example pattern -- '(%d+'`. Exits with 1 where one refuses it.

use std::env;
use std::os::unix::ffi::OsStrExt;
use std::process::ExitCode;

use luck::Version;

fn main() -> ExitCode {
    let Some(pattern) = env::args_os().nth(1) else {
        eprintln!("usage: pattern PATTERN");
        return ExitCode::from(2);
    };
    let mut code = ExitCode::SUCCESS;
    for version in Version::ALL {
        match luck::check_pattern(version, pattern.as_bytes()) {
            Ok(captures) => println!("{version}: accepted, {captures} captures"),
            Err(refusal) => {
                println!("{version}: {refusal}");
                code = ExitCode::FAILURE;
            }
        }
    }
    code
}
