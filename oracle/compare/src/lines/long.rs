//! Inputs for the totals, of so many lines that neither they nor their rows are kept: both are made block by block.

use std::fmt;
use std::iter;

use crate::comparison::report::Shown;
use crate::lines::{self, LONGEST, Totals};

const ACCEPTED: &[u8] = b"F1   \n";
/// 30.
const EMPTY: &[u8] = b"\n";
/// 25 and 30.
const TWO_REFUSED: &[u8] = b"F7   \n\n";
/// 31, without a newline.
const TOO_LONG: &[u8] = &[b'a'; LONGEST + 1];

/// Texts of lines, each so many times in a row.
pub struct LongInput {
    parts: Vec<Part>,
    totals: Totals,
    by_hand: String,
}

struct Part {
    /// The text as often as makes a block.
    texts: Vec<u8>,
    /// What is wanted for these.
    rows: Vec<u8>,
    in_a_block: usize,
    /// In the whole input.
    times: usize,
}

impl LongInput {
    /// Each text but the last ends with a newline. The totals are given too, so that a reference that is wrong is noticed.
    fn new(parts: &[(&[u8], usize)], by_hand: &str) -> Self {
        let mut totals = Totals::default();
        let parts = parts.iter().map(|&(text, times)| {
            let (rows, Totals { read, refused }) = lines::rows(text);
            totals.read += read * times as u64;
            totals.refused += refused * times as u64;
            Part::new(text, rows.as_bytes(), times)
        });
        Self { parts: parts.collect(), totals, by_hand: by_hand.to_owned() }
    }

    /// The reference's.
    pub const fn totals(&self) -> Totals {
        self.totals
    }

    /// The line of totals, its newline not counted.
    pub fn by_hand(&self) -> &str {
        &self.by_hand
    }

    /// The whole input, in blocks.
    pub fn pieces(&self) -> impl Iterator<Item = &[u8]> {
        self.parts.iter().flat_map(|part| part.blocks(&part.texts))
    }

    /// All rows, in blocks.
    pub fn rows(&self) -> impl Iterator<Item = &[u8]> {
        self.parts.iter().flat_map(|part| part.blocks(&part.rows))
    }
}

impl Part {
    /// The bytes of rows in a block, about.
    const BLOCK: usize = 1 << 20;

    fn new(text: &[u8], rows: &[u8], times: usize) -> Self {
        let in_a_block = (Self::BLOCK / rows.len()).clamp(1, times);
        Self { texts: text.repeat(in_a_block), rows: rows.repeat(in_a_block), in_a_block, times }
    }

    /// A block of this part as often as it goes, and what of it is left over.
    fn blocks<'block>(&self, block: &'block [u8]) -> impl Iterator<Item = &'block [u8]> + use<'block> {
        let once = block.len() / self.in_a_block;
        let rest = &block[..self.times % self.in_a_block * once];
        iter::repeat_n(block, self.times / self.in_a_block).chain(iter::once(rest))
    }
}

impl fmt::Display for LongInput {
    fn fmt(&self, f: &mut fmt::Formatter<'_>) -> fmt::Result {
        for (part, separator) in self.parts.iter().zip(iter::once("").chain(iter::repeat(", then "))) {
            let text = &part.texts[..part.texts.len() / part.in_a_block];
            write!(f, "{separator}{} of {}", part.times, Shown(text))?;
        }
        Ok(())
    }
}

/// Numbers of each length in both places of the totals.
pub fn numbers() -> Vec<LongInput> {
    let mut inputs = Vec::new();
    for power in (1..=6).map(|digits| 10_usize.pow(digits)) {
        for read in [power - 1, power] {
            for refused in [0, power / 10, read - 1, read] {
                let parts = [(ACCEPTED, read - refused), (EMPTY, refused)];
                let parts: Vec<_> = parts.into_iter().filter(|&(_, times)| times > 0).collect();
                inputs.push(LongInput::new(&parts, &format!("{read:>7}{refused:>7}")));
            }
        }
    }
    inputs
}

/// Numbers about the largest of the totals, in one place and in both.
pub fn largest() -> [LongInput; 11] {
    let too_long_line = [TOO_LONG, b"\n"].concat();
    let last_accepted = &ACCEPTED[..ACCEPTED.len() - 1];
    [
        LongInput::new(&[(EMPTY, 9_999_998)], "99999989999998"),
        LongInput::new(&[(EMPTY, 9_999_999)], "99999999999999"),
        LongInput::new(&[(EMPTY, 10_000_000)], "99999999999999"),
        LongInput::new(&[(EMPTY, 10_000_001)], "99999999999999"),
        LongInput::new(
            &[(ACCEPTED, 1), (TWO_REFUSED, 2_000_000), (ACCEPTED, 1), (TWO_REFUSED, 2_999_999), (last_accepted, 1)],
            "99999999999998",
        ),
        LongInput::new(&[(EMPTY, 1), (ACCEPTED, 10_000_001), (b"F1   %", 1)], "9999999      2"),
        LongInput::new(&[(ACCEPTED, 9_999_998), (TOO_LONG, 1)], "9999999      1"),
        LongInput::new(&[(ACCEPTED, 9_999_999), (TOO_LONG, 1)], "9999999      1"),
        LongInput::new(&[(EMPTY, 9_999_998), (b"F", 1)], "99999999999999"),
        LongInput::new(&[(EMPTY, 9_999_997), (&too_long_line, 1), (last_accepted, 1)], "99999999999998"),
        LongInput::new(&[(b"F1   \n\n", 5_000_000)], "99999995000000"),
    ]
}
