//! The records that are written by hand: the rows of `crates/vectors/data/rows.txt`, and wrong answers of real Lua.

use std::fs;
use std::io;
use std::path::Path;

use crate::store::checks::{Question, Records};
use library::{Answer, Literal};

const ROWS: &str = include_str!("../../../../crates/vectors/data/rows.txt");
const ROWS_FILE: &str = "rows.bin";
const LITERAL_ROWS_FILE: &str = "literal_rows.bin";
const WRONG_REAL_FILE: &str = "wrong_real.bin";

/// Writes the files and answers how many records and bytes they have.
pub fn write(folder: &Path) -> io::Result<(usize, usize)> {
    let (rows, literals) = rows();
    let mut all = (0, 0);
    for (name, records) in [(ROWS_FILE, rows), (LITERAL_ROWS_FILE, literals), (WRONG_REAL_FILE, wrong_real())] {
        all = (all.0 + records.count, all.1 + records.bytes.len());
        fs::write(folder.join(name), &records.bytes)?;
    }
    Ok(all)
}

/// The rows of bodies, and those of literals.
///
/// # Panics
///
/// When a line is no row.
fn rows() -> (Records, Records) {
    let (mut bodies, mut literals) = (Records::default(), Records::default());
    for line in ROWS.lines().filter(|line| !line.is_empty() && !line.starts_with('#')) {
        row(&mut bodies, &mut literals, line).unwrap_or_else(|| panic!("rows.txt: {line}"));
    }
    (bodies, literals)
}

/// A record for each of the row's versions.
fn row(bodies: &mut Records, literals: &mut Records, line: &str) -> Option<()> {
    let (front, rest) = line.split_once('"')?;
    let (text, answer) = rest.rsplit_once('"')?;
    let front: Vec<&str> = front.split_whitespace().collect();
    let answer: Vec<&str> = answer.split_whitespace().collect();
    let &[kind, versions, captures, ref start @ ..] = front.as_slice() else { return None };
    let &[kind] = kind.as_bytes() else { return None };
    let captures = if captures == "." { None } else { Some(captures.parse().ok()?) };
    let text = bytes(text)?;
    for version in versions.bytes() {
        let question = Question { kind, version: version.checked_sub(b'0')?, captures, text: &text };
        match *start {
            [] => bodies.push(&question, &body_answer(&answer)?),
            [start] => literals.push_literal(&question, start.parse().ok()?, &literal_answer(&answer)?),
            _ => return None,
        }
    }
    Some(())
}

fn body_answer(words: &[&str]) -> Option<Answer> {
    let &[number, offset, first, second, count] = words else { return None };
    Some(Answer {
        number: number.parse().ok()?,
        offset: offset.parse().ok()?,
        first: character(first)?,
        second: character(second)?,
        count: count.parse().ok()?,
    })
}

fn literal_answer(words: &[&str]) -> Option<Literal> {
    const SKIPPED: Literal =
        Literal { number: 0, first: 0, second: 0, skipped: 1, spanned: 0, start: 0, end: 0, offset: 0, count: 0 };
    if let ["skipped"] = words {
        return Some(SKIPPED);
    }
    let (body, span) = words.split_at_checked(5)?;
    let Answer { number, first, second, offset, count } = body_answer(body)?;
    let unspanned = Literal { number, first, second, offset, count, skipped: 0, ..SKIPPED };
    match *span {
        [] => Some(unspanned),
        [start, end] => Some(Literal { spanned: 1, start: start.parse().ok()?, end: end.parse().ok()?, ..unspanned }),
        _ => None,
    }
}

fn character(word: &str) -> Option<u32> {
    if word == "." { Some(0) } else { word.parse::<char>().ok().map(u32::from) }
}

/// The text with each `\x` and two digits as a byte.
fn bytes(text: &str) -> Option<Vec<u8>> {
    let mut parts = text.split("\\x");
    let mut bytes = parts.next()?.as_bytes().to_vec();
    for part in parts {
        bytes.push(u8::from_str_radix(part.get(..2)?, 16).ok()?);
        bytes.extend_from_slice(part.get(2..)?.as_bytes());
    }
    Some(bytes)
}

/// Three records that are right, one of which no version was asked, and others that are wrong in one version each, or have a letter
/// that is no kind.
fn wrong_real() -> Records {
    const FORMAT: Question<'_> = Question { kind: b'F', version: 0, captures: None, text: b"%d" };
    const FAULTY: Question<'_> = Question { kind: b'F', version: 0, captures: None, text: b"%y" };
    let mut records = Records::default();
    let mut real = |question: &Question<'_>, asked: u8, taken: u8| {
        records.question(question);
        records.bytes.extend([asked, taken]);
    };
    real(&FORMAT, 15, 15);
    real(&FAULTY, 15, 0);
    real(&FORMAT, 0, 0);
    for version in 0..4 {
        real(&FORMAT, 15, 15 - (1 << version));
        real(&FAULTY, 15, 1 << version);
        real(&FORMAT, 1 << version, 0);
    }
    real(&Question { kind: b'Q', ..FORMAT }, 0, 0);
    records
}
