//! Each check of a body, beside luck's with the standard library's UTF-8 test before it, since the library takes any bytes.

use std::hint::black_box;
use std::str::{self, Utf8Error};

use luck_linter::Fault;

use compare::kind::Kind;
use compare::reference::lua_version;
use library::Answer;

use crate::measure::{Grown, TIMES, growth, side, side_by_side};
use crate::plan::{KIB, MIB, Plan, size_name};
use crate::table::Tables;
use crate::texts::{self, Alphabet};

const VERSION: u32 = 4;
/// For replacements; the others do not look at it.
const CAPTURES: Option<usize> = Some(2);
const BASELINE: &str = "luck";

pub fn run(plan: &Plan, tables: &mut Tables) -> Result<(), String> {
    for kind in Kind::ALL {
        short(plan, tables, kind)?;
    }
    for kind in Kind::ALL {
        let text = texts::accepted(kind, Alphabet::Any, plan.size(64 * KIB));
        long(plan, tables, &long_name(kind, &text), kind, &text)?;
    }
    let ranges = texts::sets_of_ranges(plan.size(64 * KIB));
    long(plan, tables, "pattern, sets of ranges", Kind::Pattern, &ranges)?;
    // A pack format that is accepted has ASCII only.
    for kind in Kind::ALL.into_iter().filter(|&kind| !is_pack(kind)) {
        large(plan, tables, kind, Alphabet::Any)?;
    }
    for kind in Kind::ALL {
        large(plan, tables, kind, Alphabet::Ascii)?;
    }
    Ok(())
}

fn by_library(kind: Kind, body: &[u8]) -> Answer {
    kind.by_library(VERSION, CAPTURES, body)
}

/// What a caller of luck has: nothing is made of its answer.
fn by_luck(kind: Kind, body: &[u8]) -> Result<Result<usize, Fault>, Utf8Error> {
    let version = lua_version(VERSION).expect("4 is a version");
    str::from_utf8(body).map(|body| kind.validate(body, version, CAPTURES))
}

const fn is_pack(kind: Kind) -> bool {
    matches!(kind, Kind::Pack | Kind::Packsize)
}

fn kind_name(kind: Kind) -> String {
    format!("{kind:?}").to_lowercase()
}

fn short(plan: &Plan, tables: &mut Tables, kind: Kind) -> Result<(), String> {
    let bodies = texts::short_bodies(kind);
    let name = format!("{}, 1,000 of 5 to 40 bytes", kind_name(kind));
    compare_short(&name, kind, &bodies)?;
    let mut library = side(|| {
        for body in &bodies {
            black_box(by_library(kind, black_box(body)));
        }
    });
    let baseline = side(|| {
        for body in &bodies {
            black_box(by_luck(kind, black_box(body))).ok();
        }
    });
    let measured = side_by_side(plan, &mut library, &mut [baseline])?;
    tables.row(&name, BASELINE, measured[0]);
    Ok(())
}

/// Every answer is luck's, and there are both accepted and refused ones, a tenth at least.
fn compare_short(name: &str, kind: Kind, bodies: &[Vec<u8>]) -> Result<(), String> {
    for body in bodies {
        compare(name, kind, body)?;
    }
    let refused = bodies.iter().filter(|body| by_library(kind, body).number != 0).count();
    if (bodies.len() / 10..=bodies.len() / 10 * 9).contains(&refused) {
        Ok(())
    } else {
        Err(format!("{name}: {refused} are refused, which measures one path only"))
    }
}

/// Number, offset and count are luck's.
fn compare(name: &str, kind: Kind, body: &[u8]) -> Result<Answer, String> {
    let answer = by_library(kind, body);
    let wanted = match by_luck(kind, body) {
        Ok(Ok(count)) => (0, 0, count),
        Ok(Err(fault)) => (fault.number(), fault.offset(), 0),
        Err(error) => (23, error.valid_up_to(), 0),
    };
    let is_same = (answer.number, answer.offset, answer.count) == wanted;
    if is_same { Ok(answer) } else { Err(format!("{name}: {answer:?} differs from luck's {wanted:?}")) }
}

/// A body that is accepted, and so read to its end.
fn long(plan: &Plan, tables: &mut Tables, name: &str, kind: Kind, text: &[u8]) -> Result<(), String> {
    compare_long(name, kind, text)?;
    let mut library = side(|| by_library(kind, black_box(text)));
    let baseline = side(|| by_luck(kind, black_box(text)));
    let measured = side_by_side(plan, &mut library, &mut [baseline])?;
    tables.row(&format!("{name}, {}", size_name(text.len())), BASELINE, measured[0]);
    Ok(())
}

fn long_name(kind: Kind, text: &[u8]) -> String {
    format!("{}, {}", kind_name(kind), if text.is_ascii() { "ASCII" } else { "mixed" })
}

/// The text is accepted, and with a fault after it refused there: all of it was read.
fn compare_long(name: &str, kind: Kind, text: &[u8]) -> Result<(), String> {
    let fault = if is_pack(kind) { b"\x01" } else { b"%" };
    let accepted = compare(name, kind, text)?;
    let refused = compare(name, kind, &[text, fault].concat())?;
    if accepted.number == 0 && refused.number != 0 && refused.offset == text.len() {
        Ok(())
    } else {
        Err(format!("{name}: {accepted:?}, and with a fault at the end {refused:?}"))
    }
}

/// The same text at 1, 2, 4 and 8 times its unit, and the row of the last.
fn large(plan: &Plan, tables: &mut Tables, kind: Kind, alphabet: Alphabet) -> Result<(), String> {
    let unit = plan.size(2 * MIB);
    let text = texts::accepted(kind, alphabet, unit).repeat(8);
    let name = long_name(kind, &text);
    long(plan, tables, &name, kind, &text)?;
    TIMES.iter().try_for_each(|times| compare_long(&name, kind, &text[..times * unit]))?;
    let grown = TIMES.map(|times| {
        let text = &text[..times * unit];
        Grown { work: text.len() as f64, side: side(move || by_library(kind, black_box(text))) }
    });
    tables.growth(&name, &size_name(unit), &growth(plan, grown.into())?);
    Ok(())
}
