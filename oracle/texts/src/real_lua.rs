//! Real Lua, asked by a script that reads all of its standard input before it writes, and writes a line with its version first.

use std::fmt::Display;
use std::io::{self, Write};
use std::process::{Command, ExitCode, Stdio};

/// What the script writes behind the line with the version, for what it is asked. None where it fails, or where the version is not
/// `name`.
pub fn answer(program: &str, name: &str, script: &str, asked: &[u8]) -> io::Result<Option<Vec<u8>>> {
    // In one word: by itself, a script that starts with a comment looks like an option.
    let script = format!("-e{script}");
    let mut child = Command::new(program).arg(script).stdin(Stdio::piped()).stdout(Stdio::piped()).spawn()?;
    // Dropped at the end of this line, so that the input has an end.
    child.stdin.take().expect("standard input is piped").write_all(asked)?;
    let output = child.wait_with_output()?;
    let written = output.stdout.strip_prefix(format!("{name}\n").as_bytes()).filter(|_| output.status.success());
    Ok(written.map(<[u8]>::to_vec))
}

/// Prints what was found with each Lua. Gives 1 where any has failed, and 2 where one could not be asked.
pub fn report<T: Display>(found: Result<Vec<T>, String>, has_failed: impl Fn(&T) -> bool) -> ExitCode {
    match found {
        Ok(tallies) => {
            tallies.iter().for_each(|tally| println!("{tally}"));
            ExitCode::from(u8::from(tallies.iter().any(has_failed)))
        }
        Err(error) => {
            eprintln!("{error}");
            ExitCode::from(2)
        }
    }
}
