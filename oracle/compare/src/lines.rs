//! What is right of the program `bodies`: document 01's rules of a line, luck's answer for the body or 39, and the totals of F-9.

pub mod comparison;
mod failures;
mod heads;
mod long;
mod program;
pub mod texts;

use std::fmt;

use crate::kind::Kind;
use crate::reference::checks::Body;
use library::Answer;

/// The bytes that a line may have, its newline not counted.
pub const LONGEST: usize = 4005;
/// The largest count of captures that a line can name.
pub const MOST_CAPTURES: usize = 32;

/// What the program writes for a line.
#[derive(Debug, Clone, Copy, PartialEq, Eq)]
pub struct Row {
    pub number: u32,
    pub offset: usize,
    pub count: usize,
}

impl fmt::Display for Row {
    fn fmt(&self, f: &mut fmt::Formatter<'_>) -> fmt::Result {
        write!(f, "{:>4}{:>7}{:>7}", self.number, self.offset, self.count)
    }
}

/// What the program writes after the last row: how many lines there were, and how many of them it refused.
#[derive(Debug, Clone, Copy, Default, PartialEq, Eq)]
pub struct Totals {
    pub read: u64,
    pub refused: u64,
}

impl Totals {
    /// Stands for all that is more, too: seven columns hold no larger number.
    const MOST: u64 = 9_999_999;

    const fn add(&mut self, row: &Row) {
        self.read += 1;
        if row.number != 0 {
            self.refused += 1;
        }
    }
}

impl fmt::Display for Totals {
    fn fmt(&self, f: &mut fmt::Formatter<'_>) -> fmt::Result {
        write!(f, "{:>7}{:>7}", self.read.min(Self::MOST), self.refused.min(Self::MOST))
    }
}

/// The lines of an input, without their newlines. After the last newline no line follows but one that has bytes.
pub fn lines(input: &[u8]) -> impl Iterator<Item = &[u8]> {
    input.split_inclusive(|&byte| byte == b'\n').map(|line| line.strip_suffix(b"\n").unwrap_or(line))
}

/// All that the program writes.
pub fn output(input: &[u8]) -> Vec<u8> {
    let (rows, totals) = rows(input);
    [rows, format!("{totals}\n")].concat().into_bytes()
}

/// The rows of an input's lines, and their totals.
fn rows(input: &[u8]) -> (String, Totals) {
    let mut totals = Totals::default();
    let rows = lines(input).map(|line| {
        let row = row(line);
        totals.add(&row);
        format!("{row}\n")
    });
    (rows.collect(), totals)
}

/// The refusals in their order: 31, 30, 25, then those of the body, 23 first.
pub fn row(line: &[u8]) -> Row {
    row_by(line, Body::check)
}

/// The same with luck's own answer for the body, which is never 39.
pub fn row_by_luck(line: &[u8]) -> Row {
    row_by(line, Body::by_luck)
}

/// A check of a body with its version and count of captures.
type BodyCheck<'line> = fn(Body<'line>, Kind, u32, Option<usize>) -> Answer;

fn row_by<'line>(line: &'line [u8], check: BodyCheck<'line>) -> Row {
    if line.len() > LONGEST {
        return refused(31);
    }
    let Some(Question { kind, version, captures, body }) = question(line) else { return refused(30) };
    let answer = check(Body::new(body), kind, version, captures);
    Row { number: answer.number, offset: answer.offset, count: answer.count }
}

/// Of a line whose row has 39: whether luck finds no fault before the end of the set.
pub fn is_first_fault(line: &[u8]) -> Option<bool> {
    let Question { kind, version, body, .. } = question(line).filter(|_| line.len() <= LONGEST)?;
    let body = Body::new(body);
    body.reversed(kind, version)?;
    body.is_first_fault(kind)
}

const fn refused(number: u32) -> Row {
    Row { number, offset: 0, count: 0 }
}

struct Question<'line> {
    kind: Kind,
    /// Any digit.
    version: u32,
    captures: Option<usize>,
    body: &'line [u8],
}

/// None where the line does not fit.
fn question(line: &[u8]) -> Option<Question<'_>> {
    let (&[letter, digit, tens, ones, space], body) = line.split_first_chunk()?;
    let kind = Kind::of_letter(letter)?;
    let version = char::from(digit).to_digit(10)?;
    let captures = captures(kind, [tens, ones])?;
    (space == b' ').then_some(Question { kind, version, captures, body })
}

/// Blanks say that the count is unknown; all else is how a replacement's count is written in two columns.
fn captures(kind: Kind, columns: [u8; 2]) -> Option<Option<usize>> {
    match kind {
        _ if columns == *b"  " => Some(None),
        Kind::Replacement => (0..=MOST_CAPTURES).find(|count| format!("{count:>2}").as_bytes() == columns).map(Some),
        _ => None,
    }
}
