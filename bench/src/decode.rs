//! The decoding of a literal, beside luck's with the standard library's UTF-8 test before it.
//!
//! luck lends the literal's own bytes where there is nothing to decode, and allocates where there is. The library writes into the
//! caller's buffer, so luck with a copy into such a buffer, which is what it would take to do the same, is a second baseline.

use std::hint::black_box;

use compare::reference;
use library::Decoded;

use crate::measure::{Grown, TIMES, growth, side, side_by_side};
use crate::plan::{MIB, Plan, size_name};
use crate::table::Tables;
use crate::texts;

const VERSION: u32 = 4;
const BASELINES: [&str; 2] = ["luck", "luck and a copy"];

pub fn run(plan: &Plan, tables: &mut Tables) -> Result<(), String> {
    short(plan, tables, "decode, 1,000 of 5 to 40 bytes", &texts::short_literals())?;
    short(plan, tables, "decode, no escapes, 1,000 of 5 to 40 bytes", &texts::short_plain_literals())?;
    growing(plan, tables, "no escapes", texts::plain_literal)?;
    growing(plan, tables, "escapes", texts::escaped_literal)?;
    long(plan, tables, "hexadecimal escapes", texts::hexadecimal_literal)?;
    long(plan, tables, "decimal escapes", texts::decimal_literal)?;
    long(plan, tables, "escaped line breaks", texts::line_break_literal)?;
    long(plan, tables, "escapes of a letter", texts::letter_literal)?;
    long(plan, tables, "code points", texts::code_point_literal)?;
    growing(plan, tables, "long brackets", texts::long_literal)?;
    long(plan, tables, "long brackets, LF", texts::long_lf_literal)?;
    long(plan, tables, "long brackets, CR LF", texts::long_crlf_literal)
}

fn short(plan: &Plan, tables: &mut Tables, name: &str, literals: &[Vec<u8>]) -> Result<(), String> {
    literals.iter().try_for_each(|literal| compare(name, literal))?;
    rows(plan, tables, name, literals)
}

fn by_library(literal: &[u8], output: &mut [u8]) -> Decoded {
    let decoded = library::decode_string(VERSION, black_box(literal), output);
    black_box(output);
    decoded
}

fn by_luck(literal: &[u8]) {
    black_box(reference::by_luck(VERSION, black_box(literal))).ok();
}

fn by_luck_and_a_copy(literal: &[u8], output: &mut [u8]) {
    if let Ok(value) = reference::by_luck(VERSION, black_box(literal)) {
        output[..value.len()].copy_from_slice(&value);
    }
    black_box(output);
}

/// A call of a side decodes all the literals.
fn rows(plan: &Plan, tables: &mut Tables, name: &str, literals: &[Vec<u8>]) -> Result<(), String> {
    let room = literals.iter().map(Vec::len).max().unwrap_or(0);
    let (mut output, mut luck_output) = (vec![0; room], vec![0; room]);
    let mut library = side(|| {
        for literal in literals {
            black_box(by_library(literal, &mut output));
        }
    });
    let luck = side(|| literals.iter().for_each(|literal| by_luck(literal)));
    let copied = side(|| literals.iter().for_each(|literal| by_luck_and_a_copy(literal, &mut luck_output)));
    let measured = side_by_side(plan, &mut library, &mut [luck, copied])?;
    measured.iter().zip(BASELINES).for_each(|(&measured, beside)| tables.row(name, beside, measured));
    Ok(())
}

/// Answer and value are luck's.
fn compare(name: &str, literal: &[u8]) -> Result<(), String> {
    let mut output = vec![0; literal.len()];
    let answer = by_library(literal, &mut output);
    let value = reference::by_luck(VERSION, literal);
    let (wanted, bytes) = reference::decoded(&value, output.len());
    if answer == wanted && output.starts_with(bytes) {
        Ok(())
    } else {
        Err(format!("{name}: {answer:?} differs from luck's {wanted:?}, or the values do"))
    }
}

/// Answer and value are luck's, and luck has a value.
fn compare_decoded(name: &str, literal: &[u8]) -> Result<(), String> {
    compare(name, literal)?;
    reference::by_luck(VERSION, literal).map(drop).map_err(|refusal| format!("{name}: {refusal:?}"))
}

fn long(plan: &Plan, tables: &mut Tables, name: &str, make: fn(usize) -> Vec<u8>) -> Result<(), String> {
    let size = plan.size(MIB);
    let name = format!("decode, {name}, {}", size_name(size));
    let literal = make(size);
    compare_decoded(&name, &literal)?;
    rows(plan, tables, &name, &[literal])
}

/// The same, with a row of growth.
fn growing(plan: &Plan, tables: &mut Tables, name: &str, make: fn(usize) -> Vec<u8>) -> Result<(), String> {
    long(plan, tables, name, make)?;
    let unit = plan.size(MIB) / 8;
    let literals = TIMES.map(|times| make(times * unit));
    let name = format!("decode, {name}");
    literals.iter().try_for_each(|literal| compare_decoded(&name, literal))?;
    let grown = literals.iter().map(|literal| {
        let mut output = vec![0; literal.len()];
        Grown { work: literal.len() as f64, side: side(move || by_library(literal, &mut output)) }
    });
    tables.growth(&name, &size_name(unit), &growth(plan, grown.collect())?);
    Ok(())
}
