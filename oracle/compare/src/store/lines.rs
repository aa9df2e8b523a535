//! The stored lines of the program `bodies`, and the rows and totals that it must write for them.
//!
//! They are the reference's, and the library is not asked. The rows of the lines picked by hand are written by hand too, from
//! documents 01 to 03, and so are the totals: a reference that is wrong is noticed there.

use std::fs;
use std::io;
use std::path::Path;

use crate::comparison::report::Shown;
use crate::kind::Kind;
use crate::lines::texts::{self, HEAD};
use crate::lines::{self, Row};
use crate::store::picked;
use crate::texts::random::Random;

const INPUT_FILE: &str = "stdin";
const OUTPUT_FILE: &str = "stdout";
const SEED: u64 = 3;
/// Of each kind in each version.
const RANDOM_LINES: usize = 10;

/// Document 01's example, whole, with the totals of F-9.
const EXAMPLE_INPUT: &[u8] = b"F1   %d%s\nG4 1 %2\nP1   [^]\n";
const EXAMPLE_OUTPUT: &[u8] = b"   0      0      2\n  21      1      0\n   9      0      0\n      3      2\n";
const EXAMPLE: [ByHand<'_>; 3] = [(b"F1   %d%s", 0, 0, 2), (b"G4 1 %2", 21, 1, 0), (b"P1   [^]", 9, 0, 0)];

/// A line, and the number, the offset and the count of its row.
type ByHand<'line> = (&'line [u8], u32, usize, usize);

/// Each kind accepted, with its count where it has one.
const ACCEPTED: [ByHand<'_>; 16] = [
    (b"F1   ", 0, 0, 0),
    (b"F1   %%a", 0, 0, 0),
    (b"F4   %5.2f %s%%", 0, 0, 2),
    (b"F6   %*", 0, 0, 1),
    (b"P1   []]", 0, 0, 0),
    (b"P5   ()%1", 0, 0, 1),
    (b"P1   ()()()()()()()()()()()()()()()()()()()()()()()()()()()()()()()()", 0, 0, 32),
    (b"K3   i4 d z", 0, 0, 3),
    (b"K3   !5j", 0, 0, 1),
    (b"S3   i4d", 0, 0, 2),
    (b"G1   %x%", 0, 0, 0),
    (b"G4   %9", 0, 0, 0),
    (b"G4 0 %1", 0, 0, 0),
    (b"G632 %9", 0, 0, 0),
    (b"D4   %Y-%m-%d", 0, 0, 0),
    (b"D1   %Q", 0, 0, 0),
];

/// The smallest input of each refusal in docs/REFUSALS.md, and those of document 01's table.
const REFUSED: [ByHand<'_>; 53] = [
    (b"F1   %", 1, 0, 0),
    (b"F1   a%", 1, 1, 0),
    (b"P1   %", 1, 0, 0),
    (b"P1   [%", 1, 1, 0),
    (b"F1   %y", 2, 1, 0),
    (b"F6   %5*", 2, 2, 0),
    (b"F1   %------d", 3, 6, 0),
    (b"F1   %100d", 4, 1, 0),
    (b"F1   %123d", 4, 1, 0),
    (b"F1   %.100d", 5, 2, 0),
    (b"F1   %.123d", 5, 2, 0),
    (b"F4   %#d", 6, 1, 0),
    (b"F4   %000000000000000000000d", 7, 1, 0),
    (b"P1   [a", 8, 0, 0),
    (b"P1   []a", 8, 0, 0),
    (b"P1   []", 9, 0, 0),
    (b"P1   %f", 10, 0, 0),
    (b"P1   a%f", 10, 1, 0),
    (b"P1   )", 11, 0, 0),
    (b"P1   (", 11, 1, 0),
    (b"P1   (a", 11, 2, 0),
    (b"P1   (((((((((((((((((((((((((((((((((", 12, 32, 0),
    (b"P1   %1", 13, 1, 0),
    (b"P1   (a%1)", 13, 3, 0),
    (b"K3   y", 14, 0, 0),
    (b"K3   b1", 14, 1, 0),
    (b"K3   c", 15, 1, 0),
    (b"K3   X", 15, 1, 0),
    (b"K3   i17", 16, 1, 0),
    (b"K3   Xi17", 16, 2, 0),
    (b"K3   !i3", 17, 1, 0),
    (b"K3   !8i3", 17, 2, 0),
    (b"S3   s", 18, 0, 0),
    (b"S3   bz", 18, 1, 0),
    (b"G2   %", 19, 0, 0),
    (b"G2   a%", 19, 1, 0),
    (b"D2   %", 19, 0, 0),
    (b"G2   %x", 20, 1, 0),
    (b"G2 1 %2", 21, 1, 0),
    (b"G1 1 %2", 21, 1, 0),
    (b"G4 0 %2", 21, 1, 0),
    (b"D2   %Q", 22, 1, 0),
    (b"F1   \xFF", 23, 0, 0),
    (b"P2   (\xFF", 23, 1, 0),
    (b"K3   i17\xC3", 23, 3, 0),
    (b"S4   \xED\xA0\x80", 23, 0, 0),
    (b"G5   %\xF4\x90\x80\x80", 23, 1, 0),
    (b"D6   \xC3\xA9\x80", 23, 2, 0),
    (b"F7   ", 25, 0, 0),
    (b"F0   %", 25, 0, 0),
    (b"F8   \xFF", 25, 0, 0),
    (b"G912 %9", 25, 0, 0),
    (b"D7   %Q", 25, 0, 0),
];

/// F-10: document 03's inputs and their neighbours, with and without a backslash, and what comes before 39.
const RANGES: [ByHand<'_>; 33] = [
    (b"P1   [z-a]", 39, 1, 0),
    (b"P2   [z-%a]", 39, 1, 0),
    (b"P3   [%z-a]", 0, 0, 0),
    (b"P4   [^z-a]", 39, 2, 0),
    (b"P5   %f[z-a]", 39, 3, 0),
    (b"P6   [a-a]", 0, 0, 0),
    (b"P1   )[z-a]", 11, 0, 0),
    (b"P2   [z-a])", 39, 1, 0),
    (b"P3   [z-a", 8, 0, 0),
    (b"P4   [\xC3\xA9-a]", 39, 2, 0),
    (b"P5   ([z-a]", 39, 2, 0),
    (b"P6   [a-z][z-a]", 39, 6, 0),
    (b"P1   [a-zb-a]", 39, 4, 0),
    (b"P2   []-A]", 39, 1, 0),
    (b"P3   []-a]", 0, 0, 0),
    (b"P4   [z-]", 0, 0, 0),
    (b"P5   [--%]", 8, 0, 0),
    (b"P6   [--%]]", 39, 1, 0),
    (b"P1   [%%-a]", 0, 0, 0),
    (b"P2   [!-%%g]", 0, 0, 0),
    (b"P3   [\xC3\xA9-\xC3\xA9]", 0, 0, 0),
    (b"P4   (a)%1[z-a]", 39, 6, 0),
    (b"P5   %1[z-a]", 13, 1, 0),
    (b"P6   %b[z-a]", 0, 0, 0),
    (b"P1   [z-a]\\n", 39, 1, 0),
    (b"P2   \\[z-a]", 39, 2, 0),
    (b"P3   [z-\\]", 39, 1, 0),
    (b"P4   [a-\0]", 39, 1, 0),
    (b"P5   [z-a]\r", 39, 1, 0),
    (b"P6   [z-a]\xFF", 23, 5, 0),
    (b"P7   [z-a]", 25, 0, 0),
    (b"P1 1 [z-a]", 30, 0, 0),
    (b"F1   [z-a]", 0, 0, 0),
];

/// Lines that do not fit, and such beside them that do.
const MISFITS: [ByHand<'_>; 63] = [
    (b"", 30, 0, 0),
    (b"F", 30, 0, 0),
    (b"F1", 30, 0, 0),
    (b"F1 ", 30, 0, 0),
    (b"F1  ", 30, 0, 0),
    (b"     ", 30, 0, 0),
    (b"\0", 30, 0, 0),
    (b"\r", 30, 0, 0),
    (b"\xFF", 30, 0, 0),
    (b"f1   %d", 30, 0, 0),
    (b"X1   %d", 30, 0, 0),
    (b" F1   %d", 30, 0, 0),
    (b"\0F1   %d", 30, 0, 0),
    (b"\x001   %d", 30, 0, 0),
    (b"\xEF\xBB\xBFF1   %d", 30, 0, 0),
    (b"F    %d", 30, 0, 0),
    (b"Fx   %d", 30, 0, 0),
    (b"F/   %d", 30, 0, 0),
    (b"F:   %d", 30, 0, 0),
    (b"F-1  %d", 30, 0, 0),
    (b"F10  %d", 30, 0, 0),
    (b"F1 1 %d", 30, 0, 0),
    (b"F7 1 x", 30, 0, 0),
    (b"P1 0 a", 30, 0, 0),
    (b"K3 0 b", 30, 0, 0),
    (b"S312 b", 30, 0, 0),
    (b"D21  a", 30, 0, 0),
    (b"F1  %d", 30, 0, 0),
    (b"F1\t\t %d", 30, 0, 0),
    (b"F1  \t%d", 30, 0, 0),
    (b"F1  \r", 30, 0, 0),
    (b"F1  \0%d", 30, 0, 0),
    (b"F1   \r", 0, 0, 0),
    (b"F1    ", 0, 0, 0),
    (b"F1   %d\r", 0, 0, 1),
    (b"F1   %\r", 2, 1, 0),
    (b"P1   a\0%", 1, 2, 0),
    (b"F1   %\0", 2, 1, 0),
    (b"K3   b\0", 14, 1, 0),
    (b"D2   \0%Q\r", 22, 2, 0),
    (b"G2 1 \0\r%2", 21, 3, 0),
    (b"G4   %2", 0, 0, 0),
    (b"G4 0 %0", 0, 0, 0),
    (b"G4 2 %2", 0, 0, 0),
    (b"G4 8 %9", 21, 1, 0),
    (b"G4 9 %9", 0, 0, 0),
    (b"G410 %9", 0, 0, 0),
    (b"G431 %9", 0, 0, 0),
    (b"G432 %x", 20, 1, 0),
    (b"G433 %1", 30, 0, 0),
    (b"G440 %1", 30, 0, 0),
    (b"G499 %1", 30, 0, 0),
    (b"G400 %1", 30, 0, 0),
    (b"G401 %1", 30, 0, 0),
    (b"G409 %1", 30, 0, 0),
    (b"G49  %1", 30, 0, 0),
    (b"G41  %1", 30, 0, 0),
    (b"G40  %1", 30, 0, 0),
    (b"G4 x %1", 30, 0, 0),
    (b"G4-1 %1", 30, 0, 0),
    (b"G4+1 %1", 30, 0, 0),
    (b"G41%2", 30, 0, 0),
    (b"G700 %1", 30, 0, 0),
];

/// Without its newline, at the end.
const LAST: ByHand<'_> = (b"P1   (a)(", 11, 4, 0);

/// Lines about the limit: a head, what its body is filled with, what it ends with, the line's length, and the row.
type LongByHand = (&'static [u8; HEAD], u8, &'static [u8], usize, (u32, usize, usize));

const LONG: [LongByHand; 18] = [
    (b"F1   ", b'a', b"%d", 4004, (0, 0, 1)),
    (b"F1   ", b'a', b"%d", 4005, (0, 0, 1)),
    (b"F1   ", b'a', b"%d", 4006, (31, 0, 0)),
    (b"F1   ", b'a', b"%d", 4007, (31, 0, 0)),
    (b"F2   ", b'a', b"%", 4005, (1, 3999, 0)),
    (b"P3   ", b'a', b"(", 4005, (11, 4000, 0)),
    (b"P3   ", b'a', b"(", 4006, (31, 0, 0)),
    (b"K3   ", b'b', b"", 4005, (0, 0, 4000)),
    (b"S4   ", b'b', b"z", 4005, (18, 3999, 0)),
    (b"G5 1 ", b'a', b"%1", 4005, (0, 0, 0)),
    (b"D6   ", b'a', b"%Q", 4005, (22, 3999, 0)),
    (b"F4   ", b'a', b"\xC3", 4005, (23, 3999, 0)),
    (b"F1   ", b'a', b"\r", 4006, (31, 0, 0)),
    (b"F7   ", b'a', b"", 4005, (25, 0, 0)),
    (b"F700 ", b'a', b"", 4006, (31, 0, 0)),
    (b"X1   ", b'a', b"", 4005, (30, 0, 0)),
    (b"X1   ", b'a', b"\xFF", 4006, (31, 0, 0)),
    (b"D2   ", b'a', b"%Q", 8200, (31, 0, 0)),
];

/// The stored lines, and those of them that are refused, counted in the file.
const TOTALS: &str = "    547    326";

/// Writes both files and answers how many lines and bytes they have.
pub fn write(folder: &Path, input: &[u8]) -> io::Result<(usize, usize)> {
    let output = lines::output(input);
    fs::create_dir_all(folder)?;
    fs::write(folder.join(INPUT_FILE), input)?;
    fs::write(folder.join(OUTPUT_FILE), &output)?;
    Ok((lines::lines(input).count(), input.len() + output.len()))
}

/// A line, and its row where that was written by hand.
struct Stored {
    line: Vec<u8>,
    row: Option<Row>,
}

impl Stored {
    fn by_hand(&(line, number, offset, count): &ByHand<'_>) -> Self {
        Self { line: line.to_vec(), row: Some(Row { number, offset, count }) }
    }
}

/// The stored lines, or where the reference differs from what was written by hand.
pub fn input() -> Result<Vec<u8>, String> {
    if lines::output(EXAMPLE_INPUT) != EXAMPLE_OUTPUT {
        return Err("the reference does not give document 01's example".to_owned());
    }
    let by_hand = EXAMPLE.iter().chain(&ACCEPTED).chain(&REFUSED).chain(&RANGES).chain(&MISFITS);
    let mut stored: Vec<Stored> = by_hand.map(Stored::by_hand).collect();
    stored.extend(LONG.iter().map(long_line));
    stored.extend(random_lines());
    stored.push(Stored::by_hand(&LAST));
    checked(&stored)
}

fn long_line(&(head, filler, end, length, (number, offset, count)): &LongByHand) -> Stored {
    let body = vec![filler; length - HEAD - end.len()];
    let line = [head, body.as_slice(), end].concat();
    Stored::by_hand(&(&line, number, offset, count))
}

/// All lines, the last without its newline, where the reference finds just these lines in them and has the rows and the totals
/// written by hand.
fn checked(stored: &[Stored]) -> Result<Vec<u8>, String> {
    let all: Vec<&[u8]> = stored.iter().map(|stored| stored.line.as_slice()).collect();
    let input = all.join(&b'\n');
    let output = String::from_utf8(lines::output(&input)).expect("rows are digits and blanks");
    let mut rows: Vec<&str> = output.lines().collect();
    let totals = rows.pop().unwrap_or_default();
    if rows.len() != stored.len() {
        return Err(format!("{} lines are stored, and the reference finds {}", stored.len(), rows.len()));
    }
    for (Stored { line, row }, found) in stored.iter().zip(rows) {
        if let Some(row) = row
            && row.to_string() != found
        {
            return Err(format!("{}: by hand `{row}`, the reference `{found}`", Shown(line)));
        }
    }
    if totals != TOTALS {
        return Err(format!("the totals: by hand `{TOTALS}`, the reference `{totals}`"));
    }
    Ok(input)
}

/// Hostile bodies of each kind in each version, without newlines in them, a replacement's with every form of count.
fn random_lines() -> Vec<Stored> {
    const COLUMNS: [&str; 8] = ["  ", " 0", " 1", " 2", " 8", " 9", "10", "32"];
    let mut random = Random::new(SEED);
    let mut stored = Vec::new();
    for kind in Kind::ALL {
        for version in b'1'..=b'6' {
            for _ in 0..RANDOM_LINES {
                let columns = if kind == Kind::Replacement { random.pick(&COLUMNS) } else { COLUMNS[0] };
                let mut body = picked::hostile(&mut random, kind);
                texts::newlines_to_returns(&mut body);
                let line = [&[kind.letter(), version], columns.as_bytes(), b" ", &body].concat();
                stored.push(Stored { line, row: None });
            }
        }
    }
    stored
}
