//! The trial of gsub on a log, beside a plain Rust program of the same rules and beside real Lua 5.4.

use std::fs;
use std::hint::black_box;
use std::path::{Path, PathBuf};

use library::Trial;
use trials::plain;

use crate::measure::{Grown, Side, TIMES, growth, side, side_by_side};
use crate::plan::{KIB, Plan, size_name};
use crate::real_lua::{self, Gsub};
use crate::table::Tables;
use crate::texts;

const VERSION: u32 = 4;
const BUDGET: u32 = u32::MAX;

struct Case {
    name: &'static str,
    pattern: &'static str,
    replacement: &'static str,
}

const CASES: [Case; 8] = [
    Case { name: "`%d+`", pattern: "%d+", replacement: "<%0>" },
    Case { name: "`(%w+)=(%w+)`", pattern: "(%w+)=(%w+)", replacement: "%2=%1" },
    Case { name: "`[%w_]+`", pattern: "[%w_]+", replacement: "<%0>" },
    Case { name: "`.`", pattern: ".", replacement: "%0" },
    Case { name: "`%w*`", pattern: "%w*", replacement: "<%0>" },
    Case { name: "`#%d` (rare first byte)", pattern: "#%d", replacement: "no. %0" },
    Case { name: "empty pattern (every place matches)", pattern: "", replacement: "-" },
    Case { name: "`^%w+` (anchored)", pattern: "^%w+", replacement: "<%0>" },
];

/// From every `c` all the rest is tried, since no `@` comes: the steps grow with the square of the text.
const BACKTRACKING: Case = Case { name: "`c.-@` (backtracking)", pattern: "c.-@", replacement: "" };

pub fn run(plan: &Plan, tables: &mut Tables, folder: &Path) -> Result<(), String> {
    let has_lua = real_lua::is_installed();
    if !has_lua {
        tables.note("lua5.4 is not installed: the trial was not measured beside real Lua.".to_owned());
    }
    let unit = plan.size(60 * KIB);
    let text = texts::log(unit).repeat(8);
    for case in &CASES {
        measure(plan, tables, &Log { text: &text, unit, row: unit, file: lua_file(has_lua, folder) }, case)?;
    }
    let unit = plan.size(2 * KIB).max(64);
    let text = texts::log(unit).repeat(8);
    measure(plan, tables, &Log { text: &text, unit, row: text.len(), file: lua_file(has_lua, folder) }, &BACKTRACKING)
}

/// Where real Lua finds the subject.
fn lua_file(has_lua: bool, folder: &Path) -> Option<PathBuf> {
    has_lua.then(|| folder.join("subject.txt"))
}

struct Log<'text> {
    /// Eight times the unit.
    text: &'text [u8],
    unit: usize,
    /// The bytes of the subject that the row is of.
    row: usize,
    /// None where real Lua is not installed.
    file: Option<PathBuf>,
}

/// A trial by the library into an output that is lent for all calls, with room enough for every case.
struct Lent<'texts> {
    case: &'texts Case,
    subject: &'texts [u8],
    output: Vec<u8>,
}

impl<'texts> Lent<'texts> {
    fn new(case: &'texts Case, subject: &'texts [u8]) -> Self {
        Self { case, subject, output: vec![0; room(subject)] }
    }

    fn trial(&mut self) -> Trial {
        let (pattern, replacement) = (self.case.pattern.as_bytes(), self.case.replacement.as_bytes());
        let trial = library::gsub(VERSION, pattern, replacement, black_box(self.subject), BUDGET, &mut self.output);
        black_box(&mut self.output);
        trial
    }

    fn side(mut self) -> Side<'texts> {
        side(move || self.trial())
    }
}

const fn room(subject: &[u8]) -> usize {
    4 * subject.len() + 64
}

fn by_plain(case: &Case, subject: &[u8]) -> plain::Answer {
    plain::gsub(VERSION, case.pattern.as_bytes(), case.replacement.as_bytes(), subject, BUDGET, room(subject))
}

fn measure(plan: &Plan, tables: &mut Tables, log: &Log<'_>, case: &Case) -> Result<(), String> {
    let subject = &log.text[..log.row];
    let name = format!("trial {}, {}", case.name, size_name(subject.len()));
    TIMES.iter().try_for_each(|times| compare_plain(&name, case, &log.text[..times * log.unit]))?;
    let mut library = Lent::new(case, subject).side();
    let mut baselines = vec![side(|| by_plain(case, black_box(subject)))];
    if let Some(file) = &log.file {
        baselines.push(real_side(&name, case, subject, file)?);
    }
    let measured = side_by_side(plan, &mut library, &mut baselines)?;
    for (&measured, baseline) in measured.iter().zip(["plain Rust", "Lua 5.4"]) {
        tables.row(&name, baseline, measured);
    }
    grow(plan, tables, log, case)
}

/// Answer and output are those of the plain program, and the trial came to its end.
fn compare_plain(name: &str, case: &Case, subject: &[u8]) -> Result<(), String> {
    let mut lent = Lent::new(case, subject);
    let trial = lent.trial();
    let wanted = by_plain(case, subject);
    let found = plain::Answer {
        number: trial.number,
        kind: trial.kind,
        written: lent.output[..trial.written].to_vec(),
        replacements: trial.replacements,
        steps: trial.steps,
    };
    if found == wanted && found.number == 0 { Ok(()) } else { Err(format!("{name}: {trial:?} differs from the plain program's")) }
}

/// Real Lua's calls, once its answer is found to be the library's.
fn real_side(name: &str, case: &Case, subject: &[u8], file: &Path) -> Result<Side<'static>, String> {
    fs::write(file, subject).map_err(|error| format!("{}: {error}", file.display()))?;
    let gsub = Gsub { subject: file.to_owned(), pattern: case.pattern, replacement: case.replacement };
    let answer = gsub.run(0)?;
    let mut lent = Lent::new(case, subject);
    let trial = lent.trial();
    if answer.replacements != trial.replacements || answer.text != lent.output[..trial.written] {
        return Err(format!("{name}: real Lua's answer differs"));
    }
    Ok(Box::new(move |calls| gsub.run(calls).map(|answer| answer.seconds)))
}

/// By the byte; where the steps grow faster than the text, by the step.
fn grow(plan: &Plan, tables: &mut Tables, log: &Log<'_>, case: &Case) -> Result<(), String> {
    let is_by_step = case.pattern == BACKTRACKING.pattern;
    let grown = TIMES.map(|times| {
        let subject = &log.text[..times * log.unit];
        let mut lent = Lent::new(case, subject);
        let work = if is_by_step { f64::from(lent.trial().steps) } else { subject.len() as f64 };
        Grown { work, side: lent.side() }
    });
    let unit = format!("{}{}", size_name(log.unit), if is_by_step { ", by the step" } else { "" });
    tables.growth(&format!("trial {}", case.name), &unit, &growth(plan, grown.into())?);
    Ok(())
}
