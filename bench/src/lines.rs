//! The program `bodies` on a file of lines, beside luck over the same lines in memory.

use std::fs::{self, File};
use std::hint::black_box;
use std::path::{Path, PathBuf};
use std::process::{Command, Stdio};
use std::time::Duration;

use crate::clock;
use crate::listing;
use crate::measure::{Grown, Side, TIMES, growth, side, side_by_side};
use crate::plan::{MB, Plan, size_name};
use crate::table::Tables;
use crate::texts;

/// A file of lines, and the program that reads it.
struct Reading {
    program: PathBuf,
    file: PathBuf,
}

pub fn run(plan: &Plan, tables: &mut Tables, program: &Path, folder: &Path) -> Result<(), String> {
    if !program.is_file() {
        tables.note("The program `bodies` is not there (`tools/build bodies` makes it): it was not measured.".to_owned());
        return Ok(());
    }
    let unit = plan.size(100 * MB) / 8;
    let text = texts::lines(unit).repeat(8);
    let readings = TIMES.map(|times| Reading { program: program.to_owned(), file: folder.join(format!("lines_{times}.txt")) });
    for (reading, times) in readings.iter().zip(TIMES) {
        fs::write(&reading.file, &text[..times * unit]).map_err(|error| format!("{}: {error}", reading.file.display()))?;
    }
    for (reading, times) in readings.iter().zip(TIMES) {
        compare(reading, &text[..times * unit])?;
    }
    let mut library = program_side(&readings[TIMES.len() - 1]);
    let baseline = side(|| listing::list(black_box(&text), |rows| _ = black_box(rows)));
    let measured = side_by_side(plan, &mut library, &mut [baseline])?;
    tables.row(&format!("bodies, {} of lines", size_name(text.len())), "luck", measured[0]);

    let grown =
        readings.iter().zip(TIMES).map(|(reading, times)| Grown { work: (times * unit) as f64, side: program_side(reading) });
    tables.growth("bodies", &size_name(unit), &growth(plan, grown.collect())?);
    Ok(())
}

/// Every byte of the program's output, its totals too.
fn compare(reading: &Reading, text: &[u8]) -> Result<(), String> {
    let output = reading.command()?.stderr(Stdio::inherit()).output().map_err(|error| reading.failed(&error))?;
    let mut wanted = Vec::new();
    listing::list(text, |rows| wanted.extend_from_slice(rows));
    if output.status.success() && output.stdout == wanted {
        Ok(())
    } else {
        Err(format!("bodies, {} bytes: the rows or the totals differ from luck's", text.len()))
    }
}

/// Runs of the program, with nobody to read what it writes.
fn program_side(reading: &Reading) -> Side<'_> {
    Box::new(|calls| (0..calls).map(|_| reading.time()).sum())
}

impl Reading {
    fn command(&self) -> Result<Command, String> {
        let file = File::open(&self.file).map_err(|error| self.failed(&error))?;
        let mut command = Command::new(&self.program);
        command.stdin(file);
        Ok(command)
    }

    fn time(&self) -> Result<Duration, String> {
        let before = clock::children();
        let status = self.command()?.stdout(Stdio::null()).status().map_err(|error| self.failed(&error))?;
        if status.success() { Ok(clock::children() - before) } else { Err(format!("{}: {status}", self.program.display())) }
    }

    fn failed(&self, error: &std::io::Error) -> String {
        format!("{} on {}: {error}", self.program.display(), self.file.display())
    }
}
