//! Texts in which nothing can be refused but bytes that are not UTF-8: replacements of 5.1 with captures unknown, or known to be 9
//! or more. Each beside the library's UTF-8 test alone.

use std::hint::black_box;

use compare::kind::Kind;
use library::{Answer, token};

use crate::measure::{side, side_by_side};
use crate::plan::{MIB, Plan, size_name};
use crate::table::Tables;
use crate::texts::{self, Alphabet};

const VERSION: u32 = 1;
const BASELINE: &str = "the UTF-8 test";

pub fn run(plan: &Plan, tables: &mut Tables) -> Result<(), String> {
    let size = plan.size(64 * MIB);
    let plain = texts::ascii(size);
    let escapes = texts::accepted(Kind::Replacement, Alphabet::Ascii, size / 32).repeat(32);
    for (name, captures, text) in [
        ("replacement of 5.1, ASCII", None, &plain),
        ("replacement of 5.1, many `%`", None, &escapes),
        ("replacement of 5.1 with 9 captures, many `%`", Some(9), &escapes),
    ] {
        body(plan, tables, &format!("{name}, {}", size_name(size)), captures, text)?;
    }
    let name = format!("literal of such a replacement, ASCII, {}", size_name(size));
    literal(plan, tables, &name, &texts::plain_literal(size))
}

fn body(plan: &Plan, tables: &mut Tables, name: &str, captures: Option<usize>, text: &[u8]) -> Result<(), String> {
    let check = |text: &[u8]| library::check_replacement(VERSION, captures, text);
    is_accepted(name, check(text))?;
    let ended = check(&[text, b"\xFF"].concat());
    if (ended.number, ended.offset) != (23, text.len()) {
        return Err(format!("{name}: {ended:?} with a byte at the end that is not UTF-8"));
    }
    row(plan, tables, name, text, |text| check(text).number)
}

/// Whether a literal is skipped is tested before its body is checked, so what is between the quotes is searched for a `\`.
fn literal(plan: &Plan, tables: &mut Tables, name: &str, text: &[u8]) -> Result<(), String> {
    let check = |text: &[u8]| library::check_literal(Kind::Replacement.letter(), VERSION, None, 0, text);
    let checked = check(text);
    if checked.number != 0 || checked.skipped != 0 {
        return Err(format!("{name}: {checked:?}"));
    }
    row(plan, tables, name, text, |text| check(text).number)
}

fn is_accepted(name: &str, answer: Answer) -> Result<(), String> {
    if (answer.number, answer.offset, answer.count) == (0, 0, 0) { Ok(()) } else { Err(format!("{name}: {answer:?}")) }
}

fn row(plan: &Plan, tables: &mut Tables, name: &str, text: &[u8], call: impl Fn(&[u8]) -> u32) -> Result<(), String> {
    let mut library = side(|| call(black_box(text)));
    let baseline = side(|| token::utf8(black_box(text)));
    let measured = side_by_side(plan, &mut library, &mut [baseline])?;
    tables.row(name, BASELINE, measured[0]);
    Ok(())
}
