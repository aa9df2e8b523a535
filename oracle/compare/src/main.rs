//! Compares the proved library with luck's Rust in one process, and the program `bodies` with the same; writes the stored answers.

use std::io;
use std::path::Path;
use std::process::ExitCode;

use compare::lines::comparison::LineComparison;
use compare::run::{Extent, Run, long_extent, short_extent};
use compare::store::{self, lines};
use texts::words::{self, numbers};

const USAGE: &str = "usage: compare short | compare (long | literals | checks) [SEED] [COUNT] | compare store DIR
       compare lines PROGRAM [SEED] [COUNT] | compare store-lines DIR";

fn main() -> ExitCode {
    words::run(USAGE, run)
}

fn run(words: &[&str]) -> Option<ExitCode> {
    match *words {
        ["short"] => Some(compare(&short_extent(), Run::all)),
        ["long", ref numbers @ ..] => compare_long(numbers, Run::all),
        ["literals", ref numbers @ ..] => compare_long(numbers, Run::literals),
        ["checks", ref numbers @ ..] => compare_long(numbers, Run::checks),
        ["store", folder] => Some(store(Path::new(folder))),
        ["lines", program, ref numbers @ ..] => compare_lines(Path::new(program), numbers),
        ["store-lines", folder] => Some(store_lines(Path::new(folder))),
        _ => None,
    }
}

fn store(folder: &Path) -> ExitCode {
    match store::write(folder) {
        Ok((records, bytes)) => {
            println!("{records} records, {bytes} bytes");
            ExitCode::SUCCESS
        }
        Err(error) => cannot_use(folder, &error),
    }
}

fn cannot_use(path: &Path, error: &io::Error) -> ExitCode {
    eprintln!("{}: {error}", path.display());
    ExitCode::from(2)
}

fn store_lines(folder: &Path) -> ExitCode {
    let input = match lines::input() {
        Ok(input) => input,
        Err(difference) => {
            eprintln!("nothing is written: {difference}");
            return ExitCode::FAILURE;
        }
    };
    match lines::write(folder, &input) {
        Ok((lines, bytes)) => {
            println!("{lines} lines, {bytes} bytes");
            ExitCode::SUCCESS
        }
        Err(error) => cannot_use(folder, &error),
    }
}

fn compare_lines(program: &Path, words: &[&str]) -> Option<ExitCode> {
    const DEFAULT_COUNT: u64 = 200_000;
    let (seed, count) = numbers(words, DEFAULT_COUNT)?;
    Some(match LineComparison::run(program, seed, count) {
        Ok(comparison) => {
            println!("{comparison}");
            ExitCode::from(u8::from(comparison.has_failed()))
        }
        Err(error) => cannot_use(program, &error),
    })
}

/// The parts of a run that are asked for.
type Parts = fn(&mut Run, &Extent);

fn compare_long(words: &[&str], parts: Parts) -> Option<ExitCode> {
    const DEFAULT_COUNT: u64 = 10_000_000;
    numbers(words, DEFAULT_COUNT).map(|(seed, count)| compare(&long_extent(seed, count), parts))
}

fn compare(extent: &Extent, parts: Parts) -> ExitCode {
    let mut run = Run::new(extent);
    parts(&mut run, extent);
    println!("{}", run.report());
    ExitCode::from(u8::from(run.report().has_failed()))
}
