//! Runs a program on an input that is cut into pieces.

use std::io::{self, Write};
use std::os::fd::AsRawFd;
use std::path::Path;
use std::process::{ChildStdin, ChildStdout, Command, ExitStatus, Stdio};
use std::sync::atomic::{AtomicBool, Ordering};
use std::thread;

/// How a run ended.
pub struct Run {
    pub status: ExitStatus,
    /// Whether it read the whole input.
    pub has_read_all: bool,
}

/// Writes the pieces to the program's standard input, each as soon as the one before was read. `read` takes its output and answers
/// whether that came to its end; if not, the program is stopped, and there is nothing to say of how it ended.
pub fn run<'pieces>(
    program: &Path,
    pieces: impl Iterator<Item = &'pieces [u8]> + Send,
    read: impl FnOnce(&mut ChildStdout) -> io::Result<bool>,
) -> io::Result<Option<Run>> {
    let mut child = Command::new(program).stdin(Stdio::piped()).stdout(Stdio::piped()).spawn()?;
    let stdin = child.stdin.take().expect("standard input is piped");
    let mut stdout = child.stdout.take().expect("standard output is piped");
    let has_ended = AtomicBool::new(false);
    thread::scope(|scope| {
        let writer = scope.spawn(|| write(stdin, pieces, &has_ended));
        let is_whole = read(&mut stdout);
        let stopped = if matches!(is_whole, Ok(true)) { Ok(()) } else { child.kill() };
        let status = child.wait();
        has_ended.store(true, Ordering::Relaxed);
        let has_read_all = writer.join().expect("the writer does not panic");
        stopped?;
        let run = Run { status: status?, has_read_all };
        Ok(is_whole?.then_some(run))
    })
}

/// Whether the program read every piece. Writing fails where it has ended before.
fn write<'pieces>(mut stdin: ChildStdin, mut pieces: impl Iterator<Item = &'pieces [u8]>, has_ended: &AtomicBool) -> bool {
    pieces.all(|piece| stdin.write_all(piece).is_ok() && is_read(&stdin, has_ended))
}

/// Waits until nothing is left in the pipe, so that the next piece is not read together with this one.
fn is_read(stdin: &ChildStdin, has_ended: &AtomicBool) -> bool {
    while left_in(stdin) > 0 {
        if has_ended.load(Ordering::Relaxed) {
            return false;
        }
        thread::yield_now();
    }
    true
}

unsafe extern "C" {
    fn ioctl(file: i32, request: u64, ...) -> i32;
}

/// The bytes that were written to the pipe and not read yet.
fn left_in(pipe: &ChildStdin) -> i32 {
    /// Of Linux.
    const FIONREAD: u64 = 0x541B;
    let mut left: i32 = 0;
    // SAFETY: the file is open, and the request writes one `int` by the pointer.
    let failed = unsafe { ioctl(pipe.as_raw_fd(), FIONREAD, &raw mut left) };
    assert_eq!(failed, 0, "the system does not say what is left in the pipe");
    left
}
