//! Reads and writes that fail: the program says so on standard error, and no whole line of totals is written.

use std::fmt;
use std::fs::{self, File};
use std::io::{self, PipeReader, PipeWriter, Read, Seek, Write};
use std::os::fd::{AsRawFd, OwnedFd};
use std::os::unix::net::{UnixDatagram, UnixStream};
use std::os::unix::process::{CommandExt, ExitStatusExt};
use std::path::Path;
use std::process::{self, Child, Command, ExitStatus};
use std::sync::atomic::{AtomicBool, Ordering};
use std::thread;
use std::time::{Duration, Instant};

use crate::comparison::report::Shown;
use crate::lines;

/// A program that tries again and again, or waits, is stopped after this time.
const LIMIT: Duration = Duration::from_secs(10);
/// The bytes of a row, with its newline.
const ROW: usize = 19;
/// The bytes of the totals, without theirs.
const TOTALS: usize = 14;

/// What fails.
#[derive(Debug, Clone, Copy, PartialEq, Eq)]
enum Cause {
    FullDevice,
    ClosedPipe,
    /// Closed when the first row was read.
    LeftPipe,
    /// A socket that refuses much at once and takes little: what a program writes after a failed write comes through.
    ShortMessages,
    /// A connection on which a write fails and later ones would not. The first write is cut short before that, unless there is no
    /// room at all for it.
    SlowReader {
        is_full: bool,
    },
    /// A file that may have so many bytes.
    LimitedFile(usize),
    Folder,
    ClosedInput,
    /// A socket that gives the input, and then has nothing at the moment.
    NothingYet,
    /// A socket that gives the input, then fails once, and then is at its end.
    BrokenConnection,
}

/// A run in which something fails.
pub struct Failure {
    cause: Cause,
    input: Vec<u8>,
}

/// What a run left.
struct Run {
    /// None where it was stopped.
    status: Option<ExitStatus>,
    output: Vec<u8>,
    /// On standard error.
    said: Vec<u8>,
}

pub fn all() -> impl Iterator<Item = Failure> {
    let inputs = [
        (Cause::FullDevice, short_and_long()),
        (Cause::ClosedPipe, short_and_long()),
        (Cause::LeftPipe, vec![vec![b'\n'; 300_000]]),
        // However many rows the program writes at once, few are left for the last time after one of these numbers of lines.
        (Cause::ShortMessages, (4000..8000).step_by(200).map(|lines| vec![b'\n'; lines]).collect()),
        (Cause::SlowReader { is_full: false }, vec![vec![b'\n'; 300_000]]),
        (Cause::SlowReader { is_full: true }, vec![b"F".to_vec()]),
        (Cause::Folder, vec![vec![]]),
        (Cause::ClosedInput, vec![vec![]]),
        (Cause::NothingYet, vec![vec![], b"F1   %d\nF".to_vec()]),
        (Cause::BrokenConnection, before_the_break()),
    ];
    let failures = inputs.into_iter().flat_map(|(cause, inputs)| inputs.into_iter().map(move |input| Failure { cause, input }));
    failures.chain(cut_listings())
}

/// Listings that are cut off at each byte, the last row and the totals too.
fn cut_listings() -> impl Iterator<Item = Failure> {
    let inputs: [&[u8]; 3] = [b"", b"F1   %d\nG4 1 %2\n\nP1   [^]\n", b"F1   %d\nG4 1 %2\n\nP1   [^]"];
    inputs.into_iter().flat_map(|input| {
        (0..lines::output(input).len()).map(|limit| Failure { cause: Cause::LimitedFile(limit), input: input.to_vec() })
    })
}

/// Of the first only the totals can fail to be written.
fn short_and_long() -> Vec<Vec<u8>> {
    vec![vec![], b"F1   %d\n".to_vec(), vec![b'\n'; 300_000]]
}

/// Nothing, whole lines, and a part of a line too.
fn before_the_break() -> Vec<Vec<u8>> {
    let long_lines = [vec![b'a'; 4000], b"\n".to_vec()].concat().repeat(200);
    vec![
        vec![],
        b"F1   %d".to_vec(),
        b"F1   %d\n".to_vec(),
        b"F1   %d%s\nG4 1 %2\nP1   [^]\n".to_vec(),
        b"F1   %d%s\nG4 1 %2\nP1   [^]".to_vec(),
        vec![b'\n'; 300_000],
        [long_lines.as_slice(), b"F1   "].concat(),
        [long_lines, vec![b'a'; 100_000]].concat(),
    ]
}

impl Failure {
    /// What is wrong with the program's run, if anything is.
    pub fn difference(&self, program: &Path) -> io::Result<Option<String>> {
        /// Of Linux. A program that it ends can say nothing.
        const SIGPIPE: i32 = 13;
        let Run { status, output, said } = self.run(program)?;
        let Some(status) = status else { return Ok(Some(format!("it has not ended after {} s", LIMIT.as_secs()))) };
        Ok(match (status.signal(), self.cause) {
            (Some(SIGPIPE), _) => self.wrong_row(&output),
            (Some(_), _) => Some(format!("ended with {status}")),
            (None, Cause::LimitedFile(limit)) if !said.is_empty() => self.wrong_beginning(limit, &output),
            (None, _) if !said.is_empty() => self.wrong_row(&output),
            // Nothing fails where the program writes less at once.
            (None, Cause::ShortMessages | Cause::SlowReader { .. }) if output == lines::output(&self.input) => None,
            (None, _) => Some(format!("nothing is said on standard error, and written is {}", Shown(&output))),
        })
    }

    /// Rows of the first lines may be there. A line whose newline was not read has none, and no totals follow.
    fn wrong_row(&self, output: &[u8]) -> Option<String> {
        let whole_lines = self.input.iter().rposition(|&byte| byte == b'\n').map_or(0, |place| place + 1);
        let (rows, _) = lines::rows(&self.input[..whole_lines]);
        let rows = rows.as_bytes();
        if rows.starts_with(output) {
            return None;
        }
        let same = rows.chunks(ROW).zip(output.chunks(ROW)).take_while(|(wanted, found)| wanted == found).count();
        Some(format!("after {same} rows that are right it wrote {}", Shown(&output[same * ROW..])))
    }

    /// The listing's first bytes are there, and do not look like a whole one.
    fn wrong_beginning(&self, limit: usize, output: &[u8]) -> Option<String> {
        if is_whole(output) {
            return Some(format!("what is there ends like a whole listing: {}", Shown(output)));
        }
        let wanted = &lines::output(&self.input)[..limit];
        (output != wanted).then(|| format!("wanted {}, found {}", Shown(wanted), Shown(output)))
    }

    fn run(&self, program: &Path) -> io::Result<Run> {
        let mut command = Command::new(program);
        let input = self.input.as_slice();
        match self.cause {
            Cause::FullDevice => {
                let stdin = piped_input(&mut command)?;
                command.stdout(File::options().write(true).open("/dev/full")?);
                run(command, || feed(stdin, input), |_| vec![])
            }
            Cause::ClosedPipe => {
                let stdin = piped_input(&mut command)?;
                drop(piped_output(&mut command)?);
                run(command, || feed(stdin, input), |_| vec![])
            }
            Cause::LeftPipe => {
                let stdin = piped_input(&mut command)?;
                let stdout = piped_output(&mut command)?;
                run(command, || feed(stdin, input), |_| bytes_of(stdout.take(ROW as u64)))
            }
            Cause::ShortMessages => {
                let stdin = piped_input(&mut command)?;
                let (ours, theirs) = UnixDatagram::pair()?;
                least_room(&theirs);
                command.stdout(OwnedFd::from(theirs));
                run(command, || feed(stdin, input), |has_ended| messages(&ours, has_ended))
            }
            Cause::LimitedFile(limit) => {
                let stdin = piped_input(&mut command)?;
                let mut file = unnamed_file()?;
                command.stdout(file.try_clone()?);
                limit_files(&mut command, limit as u64);
                let run = run(command, || feed(stdin, input), |_| vec![])?;
                file.rewind()?;
                Ok(Run { output: bytes_of(file), ..run })
            }
            Cause::SlowReader { is_full } => {
                let stdin = piped_input(&mut command)?;
                let (ours, theirs) = UnixStream::pair()?;
                least_room(&theirs);
                let filled = if is_full { fill(&theirs)? } else { 0 };
                theirs.set_write_timeout(Some(PAUSE))?;
                command.stdout(OwnedFd::from(theirs));
                // The write that fails is the first one, or the second.
                let wait = if is_full { PAUSE * 3 / 2 } else { PAUSE * 5 / 2 };
                let run = run(command, || feed(stdin, input), |_| late_bytes(&ours, wait))?;
                Ok(Run { output: run.output[filled..].to_vec(), ..run })
            }
            Cause::ClosedInput => {
                let stdout = piped_output(&mut command)?;
                // SAFETY: between fork and exec only this system call is made.
                unsafe { command.pre_exec(|| if close(0) == 0 { Ok(()) } else { Err(io::Error::last_os_error()) }) };
                run(command, || (), |_| bytes_of(&stdout))
            }
            Cause::NothingYet => {
                let (mut ours, theirs) = UnixStream::pair()?;
                ours.write_all(input)?;
                theirs.set_nonblocking(true)?;
                command.stdin(OwnedFd::from(theirs));
                let stdout = piped_output(&mut command)?;
                run(command, || (), |_| bytes_of(&stdout))
            }
            Cause::Folder => {
                command.stdin(File::open(".")?);
                let stdout = piped_output(&mut command)?;
                run(command, || (), |_| bytes_of(&stdout))
            }
            Cause::BrokenConnection => {
                let (ours, mut theirs) = UnixStream::pair()?;
                // An end that is closed with something unread in it breaks the connection.
                theirs.write_all(b"unread")?;
                command.stdin(OwnedFd::from(theirs));
                let stdout = piped_output(&mut command)?;
                run(command, || feed(ours, input), |_| bytes_of(&stdout))
            }
        }
    }
}

impl fmt::Display for Failure {
    fn fmt(&self, f: &mut fmt::Formatter<'_>) -> fmt::Result {
        let cause = match self.cause {
            Cause::LimitedFile(limit) => return write!(f, "{} to a file of at most {limit} bytes", Shown(&self.input)),
            Cause::FullDevice => "to a full device",
            Cause::ClosedPipe => "to a closed pipe",
            Cause::LeftPipe => "to a pipe that is closed after the first row",
            Cause::ShortMessages => "to a socket for short messages",
            Cause::SlowReader { is_full: false } => "to a connection with little room, whose reader pauses",
            Cause::SlowReader { is_full: true } => "to a connection without room, whose reader pauses",
            Cause::Folder => "from a folder",
            Cause::ClosedInput => "from a closed descriptor",
            Cause::NothingYet => "from a connection that has nothing after it yet",
            Cause::BrokenConnection => "from a connection that breaks after it",
        };
        write!(f, "{} {cause}", Shown(&self.input))
    }
}

/// What README.md says of a listing: its last line has 14 columns and its newline.
fn is_whole(output: &[u8]) -> bool {
    output
        .strip_suffix(b"\n")
        .is_some_and(|lines| lines.rsplit(|&byte| byte == b'\n').next().is_some_and(|last| last.len() == TOTALS))
}

/// A file that is gone when it is closed.
fn unnamed_file() -> io::Result<File> {
    let path = std::env::temp_dir().join(format!("compare-lines-{}", process::id()));
    let file = File::options().read(true).write(true).create_new(true).open(&path)?;
    fs::remove_file(path)?;
    Ok(file)
}

fn piped_input(command: &mut Command) -> io::Result<PipeWriter> {
    let (reader, writer) = io::pipe()?;
    command.stdin(reader);
    Ok(writer)
}

fn piped_output(command: &mut Command) -> io::Result<PipeReader> {
    let (reader, writer) = io::pipe()?;
    command.stdout(writer);
    Ok(reader)
}

/// Runs a program beside what feeds it and what takes its output, which is told when the program has ended.
fn run(mut command: Command, feed: impl FnOnce() + Send, take: impl FnOnce(&AtomicBool) -> Vec<u8> + Send) -> io::Result<Run> {
    let (said, stderr) = io::pipe()?;
    let mut child = command.stderr(stderr).spawn()?;
    // It holds the program's ends, which must close when the program ends.
    drop(command);
    let has_ended = AtomicBool::new(false);
    thread::scope(|scope| {
        scope.spawn(feed);
        let output = scope.spawn(|| take(&has_ended));
        let said = scope.spawn(|| bytes_of(&said));
        let status = wait(&mut child);
        has_ended.store(true, Ordering::Relaxed);
        let [output, said] = [output, said].map(|bytes| bytes.join().expect("a reader does not panic"));
        Ok(Run { status: status?, output, said })
    })
}

/// None where the program had to be stopped.
fn wait(child: &mut Child) -> io::Result<Option<ExitStatus>> {
    let start = Instant::now();
    loop {
        match child.try_wait()? {
            None if start.elapsed() < LIMIT => thread::sleep(Duration::from_millis(1)),
            None => {
                child.kill()?;
                child.wait()?;
                return Ok(None);
            }
            ended => return Ok(ended),
        }
    }
}

/// Writes the input and closes. A program that stops before it has read all is right.
fn feed(mut stdin: impl Write, input: &[u8]) {
    _ = stdin.write_all(input);
}

/// All that is written, or so much of it that it is too much. A program that writes more then waits, if what it writes to stays open.
fn bytes_of(written: impl Read) -> Vec<u8> {
    const MOST: u64 = 1 << 24;
    let mut bytes = Vec::new();
    written.take(MOST).read_to_end(&mut bytes).expect("a pipe can be read");
    bytes
}

/// How long a write waits for room before it fails.
const PAUSE: Duration = Duration::from_millis(200);

/// All that is written, taken only after a while.
fn late_bytes(stdout: &UnixStream, wait: Duration) -> Vec<u8> {
    thread::sleep(wait);
    bytes_of(stdout)
}

/// Writes until there is no more room, and answers how many bytes were written.
fn fill(socket: &UnixStream) -> io::Result<usize> {
    let mut filled = 0;
    socket.set_nonblocking(true)?;
    while let Ok(length) = (&*socket).write(b".") {
        filled += length;
    }
    socket.set_nonblocking(false)?;
    Ok(filled)
}

/// All messages, end to end. Such a socket does not say that the other end is closed.
fn messages(socket: &UnixDatagram, has_ended: &AtomicBool) -> Vec<u8> {
    const TURN: Duration = Duration::from_millis(1);
    socket.set_read_timeout(Some(TURN)).expect("a socket takes a time limit");
    let mut bytes = Vec::new();
    let mut message = vec![0; 1 << 16];
    loop {
        let is_last_turn = has_ended.load(Ordering::Relaxed);
        match socket.recv(&mut message) {
            Ok(length) => bytes.extend_from_slice(&message[..length]),
            Err(_) if is_last_turn => return bytes,
            Err(_) => {}
        }
    }
}

unsafe extern "C" {
    fn setsockopt(socket: i32, level: i32, name: i32, value: *const i32, size: u32) -> i32;
    fn setrlimit(resource: i32, limits: *const [u64; 2]) -> i32;
    fn signal(number: i32, handler: usize) -> usize;
    fn close(file: i32) -> i32;
}

/// Lets a program write files of so many bytes: a write beyond them fails, and no signal ends the program.
fn limit_files(command: &mut Command, bytes: u64) {
    /// Of Linux.
    const RLIMIT_FSIZE: i32 = 1;
    const SIGXFSZ: i32 = 25;
    const SIG_IGN: usize = 1;
    let limit = move || {
        // SAFETY: the call reads two numbers by the pointer, the limit and the largest one allowed; the other only sets a flag.
        let failed = unsafe { setrlimit(RLIMIT_FSIZE, &[bytes; 2]) };
        unsafe { signal(SIGXFSZ, SIG_IGN) };
        if failed == 0 { Ok(()) } else { Err(io::Error::last_os_error()) }
    };
    // SAFETY: between fork and exec only these two system calls are made.
    unsafe { command.pre_exec(limit) };
}

/// Gives a socket as little room for what is sent as the system allows, some 4 KiB: a longer message is refused.
fn least_room(socket: &impl AsRawFd) {
    /// Of Linux.
    const SOL_SOCKET: i32 = 1;
    const SO_SNDBUF: i32 = 7;
    let room: i32 = 1;
    // SAFETY: the socket is open, and the option reads one `int` by the pointer.
    let failed = unsafe { setsockopt(socket.as_raw_fd(), SOL_SOCKET, SO_SNDBUF, &raw const room, size_of::<i32>() as u32) };
    assert_eq!(failed, 0, "the system does not lessen a socket's room");
}
