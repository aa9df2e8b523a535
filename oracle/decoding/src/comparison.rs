//! Asks the library and the plain program the same, and counts where they differ.

use std::collections::BTreeMap;
use std::fmt;

use decoding::plain::{self, Refusal};
use library::Decoded;
use texts::output::Output;

/// The versions, and numbers beside and far from them.
const VERSIONS: [u32; 9] = [1, 2, 3, 4, 5, 6, 0, 7, u32::MAX];
/// Bytes of room behind a value, to see that they stay as they were.
const SPARE_ROOM: usize = 9;
/// Differences of a kind that are printed.
const SHOWN: u64 = 3;

#[derive(Default)]
pub struct Comparison {
    output: Output,
    calls: u64,
    /// Calls by the number that the plain program gives.
    numbers: BTreeMap<u32, u64>,
    /// Differences by version, the plain program's number and the library's.
    differences: BTreeMap<(u32, u32, u32), u64>,
    /// Wide literals, which 5.4 decodes and 5.3 does not: those with a surrogate or a code point above 10FFFF.
    wide: u64,
}

impl Comparison {
    /// In every version.
    pub fn text(&mut self, text: &[u8]) {
        let values = VERSIONS.map(|version| (version, plain::value(version, text)));
        for (version, value) in &values {
            self.rooms(*version, text, value);
        }
        let [_, _, (_, of_5_3), (_, of_5_4), ..] = values;
        self.wide += u64::from(of_5_3.is_err() && of_5_4.is_ok());
    }

    /// With room to spare, with just enough, with one byte too few, and with none.
    fn rooms(&mut self, version: u32, text: &[u8], value: &Result<Vec<u8>, Refusal>) {
        let Ok(length) = value.as_ref().map(Vec::len) else {
            self.call(version, text, value, text.len());
            self.call(version, text, value, 0);
            return;
        };
        self.call(version, text, value, length + SPARE_ROOM);
        self.call(version, text, value, length);
        if length > 0 {
            self.call(version, text, value, length - 1);
        }
        if length > 1 {
            self.call(version, text, value, 0);
        }
    }

    fn call(&mut self, version: u32, text: &[u8], value: &Result<Vec<u8>, Refusal>, room: usize) {
        let (expected, written) = match plain::written(value, room) {
            Ok(bytes) => (Decoded { number: 0, offset: 0, written: bytes.len() }, bytes),
            Err(Refusal { number, offset }) => (Decoded { number, offset, written: 0 }, &[][..]),
        };
        let found = library::decode_string(version, text, self.output.lend(room));
        self.calls += 1;
        *self.numbers.entry(expected.number).or_default() += 1;
        if found == expected && self.output.holds_only(written) {
            return;
        }
        let alike = self.differences.entry((version, expected.number, found.number)).or_default();
        *alike += 1;
        if *alike <= SHOWN {
            println!(
                "version {version}, `{}`, room {room}: library {found:?} and `{}`, plain {expected:?} and `{}`",
                text.escape_ascii(),
                self.output.lent().escape_ascii(),
                written.escape_ascii()
            );
        }
    }

    pub const fn wide(&self) -> u64 {
        self.wide
    }

    pub fn differing(&self) -> u64 {
        self.differences.values().sum()
    }
}

impl fmt::Display for Comparison {
    fn fmt(&self, f: &mut fmt::Formatter<'_>) -> fmt::Result {
        writeln!(f, "{} calls, {} differ", self.calls, self.differing())?;
        for (number, count) in &self.numbers {
            writeln!(f, "  number {number}: {count}")?;
        }
        for ((version, expected, found), count) in &self.differences {
            writeln!(f, "  differ in version {version}, plain {expected}, library {found}: {count}")?;
        }
        write!(f, "  wide literals, which 5.4 decodes and 5.3 does not: {}", self.wide)
    }
}
