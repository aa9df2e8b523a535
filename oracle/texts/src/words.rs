//! The words that a run is asked for with.

use std::env;
use std::process::ExitCode;

pub const DEFAULT_SEED: u64 = 20_240_501;

/// SEED and COUNT, each with its default.
pub fn numbers(words: &[&str], default_count: u64) -> Option<(u64, u64)> {
    match *words {
        [] => Some((DEFAULT_SEED, default_count)),
        [seed] => Some((seed.parse().ok()?, default_count)),
        [seed, count] => Some((seed.parse().ok()?, count.parse().ok()?)),
        _ => None,
    }
}

/// Runs what the program's words ask for. Where they ask for nothing that there is, says how it is used, and gives 2.
pub fn run(usage: &str, run: impl FnOnce(&[&str]) -> Option<ExitCode>) -> ExitCode {
    let words: Vec<String> = env::args().skip(1).collect();
    let words: Vec<&str> = words.iter().map(String::as_str).collect();
    run(&words).unwrap_or_else(|| {
        eprintln!("{usage}");
        ExitCode::from(2)
    })
}
