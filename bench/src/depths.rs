//! The stack that each function of the library takes, over many inputs: the deepest call counts.

use std::hint::black_box;

use compare::kind::Kind;
use library::c::{self, Check, Decode, Gsub, Literals, Replacement};

use crate::plan::{KIB, MIB, Plan};
use crate::stack::Stack;
use crate::table::Tables;
use crate::texts::{self, Alphabet};
use crate::{deep, empty};

/// Far more than a function takes, the trial aside.
const SMALL: usize = 64 * KIB;
/// Twice what the trial takes.
const LARGE: usize = MIB;
const VERSIONS: std::ops::RangeInclusive<u32> = 0..=6;
const VERSION: u32 = 4;
const BUDGET: u32 = 1_000_000;
/// The texts by a grammar, of each kind.
const MANY: usize = 256;
/// The bytes of a text that are shown.
const SHOWN: usize = 32;

pub fn run(plan: &Plan, tables: &mut Tables) -> Result<(), String> {
    let mut stack = Stack::new(SMALL);
    checks(plan, tables, &mut stack)?;
    literals(plan, tables, &mut stack)?;
    decoding(plan, tables, &mut stack)?;
    trials(tables, &mut Stack::new(LARGE))
}

/// How much deeper the library's function goes than the empty one, when both are called in the same way.
fn deeper<F: Copy>(stack: &mut Stack, library: F, empty: F, call: impl Fn(F)) -> Result<usize, String> {
    let library = stack.depth(&mut || call(black_box(library)))?;
    let empty = stack.depth(&mut || call(black_box(empty)))?;
    Ok(library.saturating_sub(empty))
}

/// The deepest call until now. Of calls of the same depth it is the first.
#[derive(Default)]
struct Deepest {
    bytes: usize,
    input: String,
}

impl Deepest {
    fn meet(&mut self, bytes: usize, input: impl FnOnce() -> String) {
        if bytes > self.bytes {
            *self = Self { bytes, input: input() };
        }
    }

    fn row(&self, tables: &mut Tables, function: &str) {
        tables.stack(function, &self.input, self.bytes);
    }
}

/// A text as it is shown in a table: its bytes escaped but for quotes, and only the first ones of a long text.
fn shown(version: u32, text: &[u8]) -> String {
    let escaped = text[..text.len().min(SHOWN)].escape_ascii().to_string();
    let escaped = escaped.replace("\\\"", "\"").replace("\\'", "'").replace('|', "\\|");
    let length = if text.len() > SHOWN { format!("... of {} bytes", text.len()) } else { String::new() };
    format!("`{escaped}`{length}, version {version}")
}

/// Each version with each of the few, then one version with the many.
fn asked<'texts>(few: &'texts [Vec<u8>], many: &'texts [Vec<u8>]) -> impl Iterator<Item = (u32, &'texts Vec<u8>)> {
    let few = few.iter().flat_map(|text| VERSIONS.map(move |version| (version, text)));
    few.chain(many.iter().map(|text| (VERSION, text)))
}

fn owned(texts: &[&[u8]]) -> Vec<Vec<u8>> {
    texts.iter().map(|text| text.to_vec()).collect()
}

/// Bodies that meet every refusal of the kind, and accepted ones.
fn few_bodies(kind: Kind) -> Vec<Vec<u8>> {
    let mut bodies = owned(match kind {
        Kind::Format => {
            &[b"%d%s", b"%", b"%y", b"%------d", b"%100d", b"%.100d", b"%#d", b"%000000000000000000000d", b"%-5.3s%a%p"]
        }
        Kind::Pattern => &[
            b"(%d+)%1",
            b"%",
            b"%b(",
            b"[a",
            b"[]",
            b"[^]",
            b"%f",
            b")",
            b"(",
            b"%1",
            b"%0",
            b"()[%w_-]*%b()%f[%a]-$",
            &[b'('; 33],
        ],
        Kind::Pack | Kind::Packsize => {
            &[b"<i4 !8 b Xi8", b"y", b"c", b"X", b"i17", b"!i3", b"s", b"z", b"c10", b"c99999999999999999999"]
        }
        Kind::Replacement => &[b"%1 %0 %%", b"%", b"%x", b"%3"],
        Kind::Date => &[b"%Y-%m-%d", b"*t", b"!%c", b"%", b"%Q", b"%Ex%Od", b"%#c"],
    });
    bodies.extend(owned(&[b"", b"\xFF", "€ 门 😀".as_bytes(), b"\xE2\x82"]));
    bodies
}

/// Bodies by the grammar, and a long one that is accepted.
fn many_bodies(plan: &Plan, kind: Kind) -> Vec<Vec<u8>> {
    let mut bodies = texts::short_bodies(kind);
    bodies.truncate(plan.size(MANY));
    bodies.push(texts::accepted(kind, Alphabet::Any, plan.size(64 * KIB)));
    bodies
}

fn checks(plan: &Plan, tables: &mut Tables, stack: &mut Stack) -> Result<(), String> {
    let functions: [(&str, Kind, Check); 5] = [
        ("luck_check_format", Kind::Format, c::luck_check_format),
        ("luck_check_pattern", Kind::Pattern, c::luck_check_pattern),
        ("luck_check_pack", Kind::Pack, c::luck_check_pack),
        ("luck_check_packsize", Kind::Packsize, c::luck_check_packsize),
        ("luck_check_date", Kind::Date, c::luck_check_date),
    ];
    for (name, kind, function) in functions {
        let mut deepest = Deepest::default();
        for (version, body) in asked(&few_bodies(kind), &many_bodies(plan, kind)) {
            let bytes = deeper(stack, function, empty::check as Check, |function| {
                // SAFETY: the slice is whole and live, which is all that the library asks.
                black_box(unsafe { function(version, body.as_ptr(), body.len()) });
            })?;
            deepest.meet(bytes, || shown(version, body));
        }
        deepest.row(tables, name);
    }
    replacements(plan, tables, stack)
}

fn replacements(plan: &Plan, tables: &mut Tables, stack: &mut Stack) -> Result<(), String> {
    let mut deepest = Deepest::default();
    for (version, body) in asked(&few_bodies(Kind::Replacement), &many_bodies(plan, Kind::Replacement)) {
        for known in [0, 1] {
            let bytes = deeper(stack, c::luck_check_replacement as Replacement, empty::replacement, |function| {
                // SAFETY: as above; `known` is false or true.
                black_box(unsafe { function(version, known, 2, body.as_ptr(), body.len()) });
            })?;
            deepest.meet(bytes, || shown(version, body));
        }
    }
    deepest.row(tables, "luck_check_replacement");
    Ok(())
}

fn quoted(body: &[u8]) -> Vec<u8> {
    [b"\"", body, b"\""].concat()
}

fn literals(plan: &Plan, tables: &mut Tables, stack: &mut Stack) -> Result<(), String> {
    let mut deepest = Deepest::default();
    for kind in Kind::ALL {
        let mut few: Vec<_> = few_bodies(kind).iter().map(|body| quoted(body)).collect();
        few.extend(owned(&[b"", b"\"", b"'a\"", b"[[a]]", b"\"\\065\"", b"'\\n%'"]));
        let many: Vec<_> = many_bodies(plan, kind).iter().map(|body| quoted(body)).collect();
        for (version, text) in asked(&few, &many) {
            let bytes = deeper(stack, c::luck_check_literal as Literals, empty::literal, |function| {
                // SAFETY: the slice is whole and live, and the count of captures is known.
                black_box(unsafe { function(kind.letter(), version, 1, 2, u32::MAX - 2, text.as_ptr(), text.len()) });
            })?;
            deepest.meet(bytes, || format!("{kind:?} {}", shown(version, text)));
        }
    }
    deepest.row(tables, "luck_check_literal");
    Ok(())
}

/// Literals that meet every refusal, and decoded ones.
fn few_literals() -> Vec<Vec<u8>> {
    owned(&[
        b"\"a\"",
        b"''",
        b"",
        b"\"",
        b"\xFF",
        b"'\\q'",
        b"'\\065\\x41\\n\\z  \\\r\n'",
        b"'\\u{7FFFFFFF}\\u{20AC}'",
        b"'\\u{110000}\\u{D800}'",
        b"'\\u{80000000}'",
        b"[==[\r\na\r]==]",
        b"[=[a]]",
        "'門 😀\\65'".as_bytes(),
    ])
}

fn decoding(plan: &Plan, tables: &mut Tables, stack: &mut Stack) -> Result<(), String> {
    let mut many = texts::short_literals();
    many.truncate(plan.size(MANY));
    many.extend([texts::plain_literal, texts::escaped_literal, texts::long_literal].map(|make| make(plan.size(64 * KIB))));
    let mut deepest = Deepest::default();
    for (version, text) in asked(&few_literals(), &many) {
        // A room that is always enough, and one that is not for any but an empty value.
        for room in [text.len(), 0] {
            let mut output = vec![0; room];
            let output = output.as_mut_ptr();
            let bytes = deeper(stack, c::luck_decode_string as Decode, empty::decode, |function| {
                // SAFETY: text and output are whole, live and apart.
                black_box(unsafe { function(version, text.as_ptr(), text.len(), output, room) });
            })?;
            deepest.meet(bytes, || format!("{}, room {room}", shown(version, text)));
        }
    }
    deepest.row(tables, "luck_decode_string");
    Ok(())
}

/// A row for each input of the greatest depth, the deepest first, and one for all the others.
fn trials(tables: &mut Tables, stack: &mut Stack) -> Result<(), String> {
    let mut rows = Vec::new();
    for input in deep::inputs() {
        let (bytes, number) = trial(stack, VERSION, &input)?;
        if number != deep::TOO_DEEP {
            return Err(format!("trial, {}: {number} is the answer, so it is not the deepest", input.name));
        }
        rows.push((bytes, input.name));
    }
    rows.sort_by_key(|row| std::cmp::Reverse(row.0));
    rows.iter().for_each(|(bytes, name)| tables.stack("luck_gsub_trial", name, *bytes));
    let mut deepest = Deepest::default();
    for input in deep::shallow() {
        for version in VERSIONS {
            let (bytes, _) = trial(stack, version, &input)?;
            deepest.meet(bytes, || format!("{}, version {version}", input.name));
        }
    }
    deepest.row(tables, "luck_gsub_trial");
    Ok(())
}

/// How deep the trial goes, and its number.
fn trial(stack: &mut Stack, version: u32, input: &deep::Input) -> Result<(usize, u32), String> {
    let deep::Input { pattern, replacement, subject, room, .. } = input;
    let mut output = vec![0; *room];
    let output = output.as_mut_ptr();
    let call = |function: Gsub| {
        let (pattern_len, replacement_len, subject_len) = (pattern.len(), replacement.len(), subject.len());
        let (pattern, replacement, subject) = (pattern.as_ptr(), replacement.as_ptr(), subject.as_ptr());
        // SAFETY: the texts and the output are whole, live and apart from each other.
        let answer = unsafe {
            function(version, pattern, pattern_len, replacement, replacement_len, subject, subject_len, BUDGET, output, *room)
        };
        black_box(answer).number
    };
    let bytes = deeper(stack, c::luck_gsub_trial as Gsub, empty::gsub, |function| _ = call(function))?;
    Ok((bytes, call(c::luck_gsub_trial)))
}

#[cfg(test)]
mod tests {
    use super::*;

    #[test]
    fn the_first_of_the_deepest_is_kept() {
        let mut deepest = Deepest::default();
        for (bytes, input) in [(3, "a"), (7, "b"), (7, "c"), (5, "d")] {
            deepest.meet(bytes, || input.to_owned());
        }
        assert_eq!((deepest.bytes, deepest.input.as_str()), (7, "b"));
    }

    #[test]
    fn a_long_text_is_shown_by_its_first_bytes() {
        assert_eq!(shown(4, b"a|\n"), "`a\\|\\n`, version 4");
        assert_eq!(shown(1, &[b'('; 33]), format!("`{}`... of 33 bytes, version 1", "(".repeat(32)));
    }
}
