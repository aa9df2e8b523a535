//! Real Lua 5.4, as a child process that times its own calls of `string.gsub`.

use std::ffi::OsStr;
use std::io::Write;
use std::path::PathBuf;
use std::process::{Command, Output, Stdio};
use std::time::Duration;

const PROGRAM: &str = "lua5.4";
const SCRIPT: &str = include_str!("gsub.lua");

/// What a run of the script says.
pub struct Answer {
    pub seconds: Duration,
    pub replacements: usize,
    /// Empty but for a run without timed calls.
    pub text: Vec<u8>,
}

pub fn is_installed() -> bool {
    let quiet = Command::new(PROGRAM).arg("-v").stdout(Stdio::null()).stderr(Stdio::null()).status();
    quiet.is_ok_and(|status| status.success())
}

/// A gsub of the file's text.
pub struct Gsub {
    pub subject: PathBuf,
    pub pattern: &'static str,
    pub replacement: &'static str,
}

impl Gsub {
    /// One call that is not timed, then so many that are.
    pub fn run(&self, calls: usize) -> Result<Answer, String> {
        let output = self.output(&calls.to_string()).map_err(|error| format!("{PROGRAM}: {error}"))?;
        if !output.status.success() {
            return Err(format!("{PROGRAM}: {}", String::from_utf8_lossy(&output.stderr)));
        }
        answer(&output.stdout).ok_or_else(|| format!("{PROGRAM}: no answer to `{}`", self.pattern))
    }

    fn output(&self, calls: &str) -> std::io::Result<Output> {
        let arguments =
            [OsStr::new("-"), self.subject.as_os_str(), self.pattern.as_ref(), self.replacement.as_ref(), calls.as_ref()];
        let mut child =
            Command::new(PROGRAM).args(arguments).stdin(Stdio::piped()).stdout(Stdio::piped()).stderr(Stdio::piped()).spawn()?;
        // Dropped at the end of this line, so that the script has an end.
        child.stdin.take().expect("standard input is piped").write_all(SCRIPT.as_bytes())?;
        child.wait_with_output()
    }
}

/// A line of two numbers, and the text.
fn answer(output: &[u8]) -> Option<Answer> {
    let end = output.iter().position(|&byte| byte == b'\n')?;
    let (seconds, count) = str::from_utf8(&output[..end]).ok()?.split_once(' ')?;
    Some(Answer {
        seconds: Duration::try_from_secs_f64(seconds.parse().ok()?).ok()?,
        replacements: count.parse().ok()?,
        text: output[end + 1..].to_vec(),
    })
}
