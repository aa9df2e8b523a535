//! What the program `bodies` does, written in Rust over luck: lines that are in memory already, and rows and totals into a buffer.

use std::io::BufRead;
use std::str;

use compare::kind::Kind;
use compare::reference::lua_version;

/// The bytes that a line may have, its newline not counted.
const LONGEST: usize = 4005;
const MOST_CAPTURES: usize = 32;
/// The columns of number, offset and count, and the newline.
const ROW: usize = 19;
/// The columns of the lines read and of those refused, and the newline.
const TOTALS: usize = 15;
/// Stands for all that is more, too.
const MOST_COUNTED: usize = 9_999_999;
const BUFFER: usize = 1 << 16;

struct Row {
    number: u32,
    offset: usize,
    count: usize,
}

/// Hands on the rows of the input's lines and their totals, each time that the buffer is full, and at the end.
pub fn list(mut input: &[u8], mut write: impl FnMut(&[u8])) {
    let mut rows = Vec::with_capacity(BUFFER);
    let (mut read, mut refused) = (0, 0);
    while !input.is_empty() {
        let line = next_line(&mut input);
        if rows.len() + ROW > BUFFER {
            write(&rows);
            rows.clear();
        }
        let row = row(line);
        read += 1;
        refused += usize::from(row.number != 0);
        push(&mut rows, &row);
    }
    if rows.len() + TOTALS > BUFFER {
        write(&rows);
        rows.clear();
    }
    push_totals(&mut rows, read, refused);
    write(&rows);
}

/// Takes a line with its newline off the input's front, by the standard library's search.
fn next_line<'input>(input: &mut &'input [u8]) -> &'input [u8] {
    let whole = *input;
    let length = input.skip_until(b'\n').expect("memory can be read");
    let line = &whole[..length];
    line.strip_suffix(b"\n").unwrap_or(line)
}

fn row(line: &[u8]) -> Row {
    if line.len() > LONGEST {
        return refused(31, 0);
    }
    let Some((&[letter, digit, tens, ones, b' '], body)) = line.split_first_chunk() else { return refused(30, 0) };
    let (Some(kind), b'0'..=b'9') = (Kind::of_letter(letter), digit) else { return refused(30, 0) };
    let Some(captures) = captures(kind, tens, ones) else { return refused(30, 0) };
    let Some(version) = lua_version(u32::from(digit - b'0')) else { return refused(25, 0) };
    match str::from_utf8(body).map(|body| kind.validate(body, version, captures)) {
        Ok(Ok(count)) => Row { number: 0, offset: 0, count },
        Ok(Err(fault)) => refused(fault.number(), fault.offset()),
        Err(error) => refused(23, error.valid_up_to()),
    }
}

const fn refused(number: u32, offset: usize) -> Row {
    Row { number, offset, count: 0 }
}

/// Blanks say that the count is unknown. The outer `None` is for columns that do not fit.
fn captures(kind: Kind, tens: u8, ones: u8) -> Option<Option<usize>> {
    let digit = |byte: u8| usize::from(byte - b'0');
    let count = match (tens, ones) {
        (b' ', b' ') => return Some(None),
        _ if kind != Kind::Replacement => return None,
        (b' ', b'0'..=b'9') => digit(ones),
        (b'1'..=b'9', b'0'..=b'9') => 10 * digit(tens) + digit(ones),
        _ => return None,
    };
    (count <= MOST_CAPTURES).then_some(Some(count))
}

fn push(rows: &mut Vec<u8>, row: &Row) {
    let mut columns = [b' '; ROW];
    justify(&mut columns[..4], row.number as usize);
    justify(&mut columns[4..11], row.offset);
    justify(&mut columns[11..18], row.count);
    columns[18] = b'\n';
    rows.extend_from_slice(&columns);
}

fn push_totals(rows: &mut Vec<u8>, read: usize, refused: usize) {
    let mut columns = [b' '; TOTALS];
    justify(&mut columns[..7], read.min(MOST_COUNTED));
    justify(&mut columns[7..14], refused.min(MOST_COUNTED));
    columns[14] = b'\n';
    rows.extend_from_slice(&columns);
}

/// The digits of a number that is not too long for its columns, at their end.
fn justify(columns: &mut [u8], mut number: usize) {
    for column in columns.iter_mut().rev() {
        *column = b'0' + (number % 10) as u8;
        number /= 10;
        if number == 0 {
            return;
        }
    }
}

#[cfg(test)]
mod tests {
    use super::*;

    fn listed(input: &[u8]) -> Vec<u8> {
        let mut all = Vec::new();
        list(input, |rows| all.extend_from_slice(rows));
        all
    }

    #[test]
    fn a_listing_ends_with_its_totals() {
        assert_eq!(listed(b""), b"      0      0\n");
        assert_eq!(
            listed(b"F1   %d%s\nG4 1 %2\nP1   [^]\n"),
            b"   0      0      2\n  21      1      0\n   9      0      0\n      3      2\n"
        );
    }

    /// So many rows fit into the buffer, and no totals after them.
    #[test]
    fn totals_come_after_a_full_buffer() {
        let lines = BUFFER / ROW;
        assert!(lines * ROW + TOTALS > BUFFER);
        assert!(listed(&vec![b'\n'; lines]).ends_with(b"  30      0      0\n   3449   3449\n"));
    }

    #[test]
    fn the_largest_number_stands_for_more() {
        let mut rows = Vec::new();
        push_totals(&mut rows, 10_000_000, 9_999_998);
        assert_eq!(rows, b"99999999999998\n");
    }
}
