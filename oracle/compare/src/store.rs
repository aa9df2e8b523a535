//! The stored answers: a file of records for a program that replays them without luck.
//!
//! The answers are the reference's; the library is not asked.

mod checks;
pub mod lines;
pub mod picked;
mod rows;

use std::fs;
use std::io;
use std::ops::RangeInclusive;
use std::path::Path;

use crate::reference::{self, VERSIONS};
use crate::texts::random::Random;
use crate::texts::{edges, grammar};
use library::Decoded;

const FILE: &str = "literals.bin";
const WRONG_FILE: &str = "wrong.bin";
const SEED: u64 = 1;
const SHORT_TEXTS: usize = 330;
const LONG_TEXTS: usize = 10;

/// Writes the files and answers how many records and bytes the stored answers have.
pub fn write(folder: &Path) -> io::Result<(usize, usize)> {
    let mut records = Records::default();
    edge_records(&mut records);
    room_records(&mut records);
    version_records(&mut records);
    random_records(&mut records);
    fs::create_dir_all(folder)?;
    fs::write(folder.join(FILE), &records.bytes)?;
    fs::write(folder.join(WRONG_FILE), wrong_records().bytes)?;
    let checks = checks::write(folder)?;
    let rows = rows::write(folder)?;
    Ok((records.count + checks.0 + rows.0, records.bytes.len() + checks.1 + rows.1))
}

#[derive(Default)]
struct Records {
    count: usize,
    bytes: Vec<u8>,
}

impl Records {
    fn add(&mut self, version: u8, text: &[u8], room: usize) {
        let value = reference::value(version.into(), text);
        let (answer, written) = reference::decoded(&value, room);
        self.push(version, text, room, answer, written);
    }

    fn push(&mut self, version: u8, text: &[u8], room: usize, answer: Decoded, value: &[u8]) {
        self.bytes.push(version);
        self.short(room);
        self.short(text.len());
        self.bytes.extend_from_slice(text);
        self.bytes.push(u8::try_from(answer.number).expect("refusals are under 256"));
        self.short(answer.offset);
        self.short(answer.written);
        self.bytes.extend_from_slice(value);
        self.count += 1;
    }

    /// With room for the value and `spare` bytes, or for the whole text where there is no value.
    fn add_with_spare(&mut self, version: u8, text: &[u8], spare: usize) {
        let length = value_length(version, text).unwrap_or(text.len());
        self.add(version, text, length + spare);
    }

    fn short(&mut self, number: usize) {
        let number = u16::try_from(number).expect("stored texts are short");
        self.bytes.extend_from_slice(&number.to_le_bytes());
    }
}

fn value_length(version: u8, text: &[u8]) -> Option<usize> {
    reference::value(version.into(), text).ok().map(|value| value.len())
}

fn versions() -> impl Iterator<Item = u8> {
    VERSIONS.map(|version| version as u8)
}

/// Every edge in every version. The room goes from just enough to three bytes more.
fn edge_records(records: &mut Records) {
    for (index, text) in edges::texts().iter().enumerate() {
        for version in versions() {
            records.add_with_spare(version, text, (index + usize::from(version)) % 4);
        }
    }
}

/// 26, and what comes before it: with one byte too few, and with none.
fn room_records(records: &mut Records) {
    const TEXTS: [&str; 18] = [
        "\"\"",
        "\"a\"",
        "\"ab\"",
        "\"\\n\"",
        "\"\\65b\"",
        "\"\\x41b\"",
        "\"\\u{20AC}\"",
        "\"\\u{10FFFF}a\"",
        "\"\\u{D800}\"",
        "\"\\u{1FFFFF}\"",
        "\"\\u{3FFFFFF}\"",
        "\"\\u{7FFFFFFF}a\"",
        "\"\\z  a\"",
        "\"\\q\"",
        "[[]]",
        "[[\n]]",
        "[[a\r\nb]]",
        "[=[é]=]",
    ];
    for text in TEXTS.map(str::as_bytes) {
        for version in versions() {
            let length = value_length(version, text).unwrap_or(text.len());
            records.add(version, text, length.saturating_sub(1));
            records.add(version, text, 0);
        }
    }
    records.add(4, b"\xFF", 0);
}

/// 25 before all else.
fn version_records(records: &mut Records) {
    const TEXTS: [&[u8]; 6] = [b"", b"\"a\"", b"[[a]]", b"\"\\q\"", b"\xFF", b"\"abc\""];
    for version in [0, 7, 8, 255] {
        for text in TEXTS {
            records.add(version, text, 4);
            records.add(version, text, 0);
        }
    }
}

/// Two records that are right, and others that are wrong in one field each, all of which a replay must tell.
fn wrong_records() -> Records {
    const RIGHT: Decoded = Decoded { number: 0, offset: 0, written: 2 };
    const REFUSED: Decoded = Decoded { number: 23, offset: 1, written: 0 };
    let mut records = Records::default();
    let mut value = |answer: Decoded, value: &[u8]| records.push(4, b"\"ab\"", 3, answer, value);
    value(RIGHT, b"ab");
    value(Decoded { number: 24, ..RIGHT }, b"ab");
    value(Decoded { offset: 1, ..RIGHT }, b"ab");
    value(Decoded { written: 1, ..RIGHT }, b"a");
    value(Decoded { written: 3, ..RIGHT }, b"ab\xF9");
    value(RIGHT, b"bb");
    value(RIGHT, b"aa");
    let mut refusal = |answer: Decoded| records.push(4, b"\"\xFF\"", 3, answer, b"");
    refusal(REFUSED);
    refusal(Decoded { number: 24, ..REFUSED });
    refusal(Decoded { offset: 0, ..REFUSED });
    records
}

/// Random literals, every other one damaged, in two versions each: mostly short, and a few of some hundred bytes.
fn random_records(records: &mut Records) {
    let mut random = Random::new(SEED);
    let short = random_texts(&mut random, SHORT_TEXTS, 0..=100);
    let long = random_texts(&mut random, LONG_TEXTS, 300..=1500);
    for text in short.iter().chain(&long) {
        for _ in 0..2 {
            let version = 1 + random.below(6) as u8;
            let spare = random.below(8);
            records.add_with_spare(version, text, spare);
        }
    }
}

/// The first `count` random texts whose lengths are among `lengths`.
fn random_texts(random: &mut Random, count: usize, lengths: RangeInclusive<usize>) -> Vec<Vec<u8>> {
    let mut texts = Vec::new();
    while texts.len() < count {
        let mut text = Vec::new();
        grammar::literal(random, &mut text);
        if texts.len() % 2 == 1 {
            grammar::damage(random, &mut text);
        }
        if lengths.contains(&text.len()) {
            texts.push(text);
        }
    }
    texts
}
