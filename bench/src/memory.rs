//! Memory: what the library asks of the C library, and how much the program `bodies` ever has in memory.

use std::collections::BTreeSet;
use std::fs;
use std::io::{ErrorKind, Write};
use std::path::Path;
use std::process::{Child, Command, Stdio};

use library::ARCHIVE;

use crate::plan::{MB, Plan, size_name};
use crate::table::Tables;
use crate::texts;

/// What the library may call. None of them allocates.
const COPYING: [&str; 4] = ["memcmp", "memcpy", "memmove", "memset"];
/// In KiB.
const NOISE: u64 = 512;
const INPUTS: [usize; 3] = [10 * MB, 100 * MB, 1000 * MB];

pub fn run(plan: &Plan, tables: &mut Tables, program: &Path) -> Result<(), String> {
    calls(tables)?;
    if !program.is_file() {
        tables.note("The program `bodies` is not there (`tools/build bodies` makes it): its memory was not measured.".to_owned());
        return Ok(());
    }
    let lines = texts::lines(MB);
    let mut residents = Vec::new();
    for size in INPUTS.map(|size| plan.size(size)) {
        let resident = resident(program, &lines, size)?;
        residents.push(resident);
        tables.memory(
            &format!("bodies, {} of lines by a pipe", size_name(size)),
            "most ever resident",
            &format!("{resident} KiB"),
        );
    }
    if is_constant(&residents) { Ok(()) } else { Err(format!("bodies: its memory is not constant: {residents:?} KiB")) }
}

/// Whether no figure is much above another: which pages of the system's own library are read differs from run to run.
fn is_constant(residents: &[u64]) -> bool {
    let (least, greatest) = (residents.iter().min(), residents.iter().max());
    least.zip(greatest).is_some_and(|(least, greatest)| greatest - least <= NOISE)
}

/// All that the archive leaves to others. Another function than those that copy is an error.
fn calls(tables: &mut Tables) -> Result<(), String> {
    let output = match Command::new("nm").arg(ARCHIVE).output() {
        Err(error) if error.kind() == ErrorKind::NotFound => {
            tables.note("nm is not installed: what the library calls was not read from its archive.".to_owned());
            return Ok(());
        }
        output => output.map_err(|error| format!("nm: {error}"))?,
    };
    let symbols = String::from_utf8_lossy(&output.stdout);
    if !output.status.success() || !symbols.contains("luck_gsub_trial") {
        return Err(format!("nm on {ARCHIVE}: {} {}", output.status, String::from_utf8_lossy(&output.stderr)));
    }
    let called = undefined(&symbols);
    match called.iter().find(|name| !COPYING.contains(name)) {
        Some(name) => Err(format!("{ARCHIVE} calls {name}")),
        None => {
            let called: Vec<&str> = called.into_iter().collect();
            tables.memory("the library, libluck.a", "functions of others that it calls", &called.join(", "));
            Ok(())
        }
    }
}

/// Of what `nm` prints, the names that no object of the archive defines. A line is an address, a letter and a name; without an
/// address the name is used and not defined there.
fn undefined(symbols: &str) -> BTreeSet<&str> {
    let mut used = BTreeSet::new();
    let mut defined = BTreeSet::new();
    for line in symbols.lines() {
        match line.split_whitespace().collect::<Vec<_>>()[..] {
            [_, _, name] => defined.insert(name),
            [_, name] => used.insert(name),
            _ => false,
        };
    }
    &used - &defined
}

/// The most KiB that the program ever had in memory when it was fed so many bytes, of which a pipe may still hold the last.
///
/// It is read while the program waits for more: `wait4` says nothing of it, since its greatest resident set has that of the
/// process which started the program in it.
fn resident(program: &Path, lines: &[u8], size: usize) -> Result<u64, String> {
    let failed = |error: std::io::Error| format!("{}: {error}", program.display());
    let mut child = Command::new(program).stdin(Stdio::piped()).stdout(Stdio::null()).spawn().map_err(failed)?;
    let fed = feed(&mut child, lines, size).map_err(failed);
    let status_file = fs::read_to_string(format!("/proc/{}/status", child.id())).map_err(failed);
    // The program comes to its end in any case.
    drop(child.stdin.take());
    let status = child.wait().map_err(failed)?;
    fed?;
    if !status.success() {
        return Err(format!("{}: {status}", program.display()));
    }
    high_water(&status_file?).ok_or_else(|| format!("{}: the system does not say its memory", program.display()))
}

/// The lines again and again, the last time a part of them.
fn feed(child: &mut Child, lines: &[u8], size: usize) -> std::io::Result<()> {
    let input = child.stdin.as_mut().expect("standard input is piped");
    let mut left = size;
    while left > 0 {
        let block = &lines[..left.min(lines.len())];
        input.write_all(block)?;
        left -= block.len();
    }
    Ok(())
}

/// Of a status file of Linux, the greatest resident set in KiB.
fn high_water(status: &str) -> Option<u64> {
    let line = status.lines().find_map(|line| line.strip_prefix("VmHWM:"))?;
    line.trim().strip_suffix(" kB")?.parse().ok()
}

#[cfg(test)]
mod tests {
    use super::*;

    #[test]
    fn a_name_that_another_object_defines_is_no_call_of_others() {
        let symbols = "\na.o:\n0000000000000000 T one\n                 U two\n                 U memcpy\n\nb.o:\n0000000000000010 T two\n                 w malloc\n";
        assert_eq!(undefined(symbols).into_iter().collect::<Vec<_>>(), ["malloc", "memcpy"]);
    }

    #[test]
    fn memory_that_grows_is_not_constant() {
        assert!(is_constant(&[1244, 1220, 1216]) && !is_constant(&[1244, 1344, 2244]) && !is_constant(&[]));
    }

    #[test]
    fn high_water_is_one_line_of_the_status() {
        assert_eq!(high_water("Name:\tbodies\nVmHWM:\t    1204 kB\nVmRSS:\t    1200 kB\n"), Some(1204));
        assert_eq!(high_water("Name:\tbodies\n"), None);
    }
}
