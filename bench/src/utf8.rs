//! The UTF-8 test by itself, beside the standard library's.

use std::hint::black_box;
use std::str;

use library::token;

use crate::measure::{Grown, TIMES, growth, side, side_by_side};
use crate::plan::{MIB, Plan, size_name};
use crate::table::Tables;
use crate::texts;

pub fn run(plan: &Plan, tables: &mut Tables) -> Result<(), String> {
    let unit = plan.size(2 * MIB);
    measure(plan, tables, "ASCII", unit, &texts::ascii(unit).repeat(8))?;
    measure(plan, tables, "mixed", unit, &texts::mixed(unit).repeat(8))
}

/// `text` is eight times its unit.
fn measure(plan: &Plan, tables: &mut Tables, alphabet: &str, unit: usize, text: &[u8]) -> Result<(), String> {
    let name = format!("UTF-8 test, {alphabet}");
    TIMES.iter().try_for_each(|times| compare(&name, &text[..times * unit]))?;
    let mut library = side(|| token::utf8(black_box(text)));
    let baseline = side(|| str::from_utf8(black_box(text)));
    let measured = side_by_side(plan, &mut library, &mut [baseline])?;
    tables.row(&format!("{name}, {}", size_name(text.len())), "from_utf8", measured[0]);

    let grown = TIMES.map(|times| {
        let text = &text[..times * unit];
        Grown { work: text.len() as f64, side: side(move || token::utf8(black_box(text))) }
    });
    tables.growth(&name, &size_name(unit), &growth(plan, grown.into())?);
    Ok(())
}

/// Both take the text, and both find a byte at its end that is none.
fn compare(name: &str, text: &[u8]) -> Result<(), String> {
    let ended = [text, b"\xFF"].concat();
    let is_same = str::from_utf8(text).is_ok()
        && token::utf8(text) == text.len()
        && str::from_utf8(&ended).is_err_and(|error| error.valid_up_to() == text.len())
        && token::utf8(&ended) == text.len();
    if is_same { Ok(()) } else { Err(format!("{name}: the answers differ")) }
}
