//! Compares the proved library's decoding of literals with a plain program of the same rules, in one process: number,
//! offset, bytes written, and every byte of the output. `real` compares both with real Lua 5.4 and 5.3.

mod code_points;
mod comparison;
mod exhaustive;
mod grammar;
mod real;

use std::process::ExitCode;

use comparison::Comparison;
use exhaustive::{BRACKETS, CODE_POINTS, HOSTILE, LONG, LONG_LEVEL_1, QUOTED, RAW};
use texts::exhaustive::{Form, texts};
use texts::random::{self, Grammar, Random};
use texts::section;
use texts::words::{self, DEFAULT_SEED, numbers};

const USAGE: &str = "usage: decoding short | decoding long [SEED] [COUNT] | decoding real [SEED] [COUNT]";
const LITERALS: Grammar = Grammar { make: grammar::literal, damage: grammar::damage };

/// How far a run goes.
struct Extent {
    hostile: usize,
    code_point_symbols: usize,
    brackets: usize,
    /// One code point in so many.
    step: usize,
    seed: u64,
    random_literals: u64,
}

fn short_extent() -> Extent {
    Extent { hostile: 4, code_point_symbols: 5, brackets: 6, step: 65_521, seed: DEFAULT_SEED, random_literals: 300_000 }
}

fn long_extent(seed: u64, random_literals: u64) -> Extent {
    Extent { hostile: 5, code_point_symbols: 6, brackets: 8, step: 1_021, seed, random_literals }
}

/// Runs a part of the comparison and says how many texts it had, how many of them are wide, and how long it took.
fn section(comparison: &mut Comparison, name: &str, part: impl FnOnce(&mut dyn FnMut(&[u8]))) {
    section::run(name, || {
        let wide_before = comparison.wide();
        let count = section::ask_all(part, |text| comparison.text(text));
        format!("{count} texts, {} wide", comparison.wide() - wide_before)
    });
}

fn all_texts(comparison: &mut Comparison, name: &str, symbols: &[&[u8]], most: usize, form: &Form) {
    let name = format!("{name}, {}, up to {most}", form.name);
    section(comparison, &name, |visit| texts(symbols, most, form, visit));
}

fn compare(extent: &Extent) -> ExitCode {
    let mut comparison = Comparison::default();
    section(&mut comparison, "boundaries of code points", code_points::boundaries);
    section(&mut comparison, "two of them", code_points::pairs);
    let name = format!("one code point in {}", extent.step);
    section(&mut comparison, &name, |visit| code_points::stepped(extent.step, visit));
    section(&mut comparison, "escapes of one and two bytes", exhaustive::escapes);
    for form in [RAW, QUOTED, LONG] {
        all_texts(&mut comparison, "hostile symbols", &HOSTILE, extent.hostile, &form);
    }
    all_texts(&mut comparison, "code point symbols", &CODE_POINTS, extent.code_point_symbols, &QUOTED);
    for form in [RAW, LONG_LEVEL_1] {
        all_texts(&mut comparison, "bracket symbols", &BRACKETS, extent.brackets, &form);
    }
    let name = format!("random literals, seed {}", extent.seed);
    section(&mut comparison, &name, |visit| {
        random::texts(&mut Random::new(extent.seed), extent.random_literals, LITERALS, visit);
    });
    println!("{comparison}");
    ExitCode::from(u8::from(comparison.differing() > 0))
}

fn run(words: &[&str]) -> Option<ExitCode> {
    match *words {
        ["short"] => Some(compare(&short_extent())),
        ["long", ref words @ ..] => numbers(words, 5_000_000).map(|(seed, count)| compare(&long_extent(seed, count))),
        ["real", ref words @ ..] => numbers(words, 1_000_000).map(|(seed, count)| real::run(seed, count)),
        _ => None,
    }
}

fn main() -> ExitCode {
    words::run(USAGE, run)
}
