//! Writes the stored trials that the program `vectors` replays: the answers of real Lua, document 01's worked examples (`data/rows.txt`), and wrong ones.

use std::fs;
use std::io;
use std::path::Path;

use crate::real::{self, Answer, BUDGET};

/// The program's buffer is larger than this.
const MOST_BYTES: usize = 262_000;
const ROOM: u16 = 512;
const STEPS_KNOWN: u8 = 1;
const KINDS_ALIKE: u8 = 2;
const NUMBER_AND_KIND: u8 = 4;

/// The fields of a record, in their order.
pub struct Record {
    /// Bit 0 is version 1.
    pub versions: u8,
    pub known: u8,
    pub budget: u32,
    pub room: u16,
    pub texts: [Vec<u8>; 3],
    pub number: u8,
    pub kind: u8,
    pub replacements: u16,
    pub steps: u32,
    pub written: Vec<u8>,
}

fn length(bytes: &[u8]) -> [u8; 2] {
    u16::try_from(bytes.len()).unwrap().to_le_bytes()
}

impl Record {
    fn bytes(&self) -> Vec<u8> {
        let mut bytes = vec![self.versions, self.known];
        bytes.extend(self.budget.to_le_bytes());
        bytes.extend(self.room.to_le_bytes());
        self.texts.iter().for_each(|text| bytes.extend(length(text)));
        self.texts.iter().for_each(|text| bytes.extend(text));
        bytes.extend([self.number, self.kind]);
        bytes.extend(self.replacements.to_le_bytes());
        bytes.extend(self.steps.to_le_bytes());
        bytes.extend(length(&self.written));
        bytes.extend(&self.written);
        bytes
    }
}

/// A record for each answer that some versions share. Of an error, real Lua tells its kind only.
fn real_records(case: &real::Case) -> Vec<Record> {
    let mut shared: Vec<(&Answer, u8)> = Vec::new();
    for (bit, answer) in case.answers.iter().enumerate().filter(|(_, answer)| **answer != Answer::LeftOut) {
        match shared.iter_mut().find(|(other, _)| *other == answer) {
            Some((_, versions)) => *versions |= 1 << bit,
            None => shared.push((answer, 1 << bit)),
        }
    }
    let record = |(answer, versions): (&Answer, u8)| {
        let base = Record {
            versions,
            known: 0,
            budget: BUDGET,
            room: ROOM,
            texts: case.texts.clone(),
            number: 0,
            kind: 0,
            replacements: 0,
            steps: 0,
            written: Vec::new(),
        };
        match answer {
            Answer::Done(count, text) => Record { replacements: u16::try_from(*count).unwrap(), written: text.clone(), ..base },
            Answer::Raised(kind) => {
                Record { known: KINDS_ALIKE | NUMBER_AND_KIND, number: 29, kind: u8::try_from(*kind).unwrap(), ..base }
            }
            Answer::LeftOut => unreachable!("left out above"),
        }
    };
    shared.into_iter().map(record).collect()
}

/// A text of `rows.txt`, repeated where a number and `*` stand before it.
fn row_text(word: &str) -> Option<Vec<u8>> {
    match word.split_once('*') {
        Some((times, word)) if times.bytes().all(|byte| byte.is_ascii_digit()) => {
            Some(real::text(word)?.repeat(times.parse().ok()?))
        }
        _ => real::text(word),
    }
}

fn row(line: &str) -> Option<Record> {
    let words: Vec<&str> = line.split(' ').collect();
    let [versions, budget, room, pattern, replacement, subject, number, kind, replacements, steps, written] = words.as_slice()
    else {
        return None;
    };
    let bits = versions.bytes().map(|digit| 1u8 << (digit - b'1'));
    Some(Record {
        versions: bits.fold(0, |set, bit| set | bit),
        known: STEPS_KNOWN,
        budget: budget.parse().ok()?,
        room: room.parse().ok()?,
        texts: [row_text(pattern)?, row_text(replacement)?, row_text(subject)?],
        number: number.parse().ok()?,
        kind: kind.parse().ok()?,
        replacements: replacements.parse().ok()?,
        steps: steps.parse().ok()?,
        written: row_text(written)?,
    })
}

fn rows(file: &Path) -> io::Result<Vec<Record>> {
    let content = fs::read_to_string(file)?;
    let lines = content.lines().filter(|line| !line.starts_with('#'));
    lines.map(|line| row(line).ok_or_else(|| io::Error::other(line.to_owned()))).collect()
}

/// Trials that 5.1 runs to the end and the other versions do not, each with the answer of one of the two versions that it names.
fn wrong_in_one_version() -> impl Iterator<Item = Record> {
    let others = (2..=8).map(|other| format!("1{other} 1000 10 \"a\" \"%x\" \"a\" 0 0 1 3 \"x\""));
    let first = "12 1000 10 \"a\" \"%x\" \"a\" 29 9 1 2 \"\"".to_owned();
    others.chain([first]).map(|line| row(&line).unwrap())
}

/// Right ones, ones that are wrong in one field each, and ones that are wrong in one version.
fn wrong() -> Vec<Record> {
    let line = "123456 1000 10 \"a\" \"x\" \"aba\" 0 0 2 6 \"xbx\"";
    let right = || row(line).unwrap();
    let raised = || row("123456 1000 10 \"(a\" \"%1\" \"ab\" 29 6 1 3 \"\"").unwrap();
    let mut records = vec![
        right(),
        Record { number: 27, ..right() },
        Record { kind: 1, ..right() },
        Record { replacements: 1, ..right() },
        Record { steps: 7, ..right() },
        Record { written: b"xbxa".to_vec(), ..right() },
        Record { written: b"xbb".to_vec(), ..right() },
        Record { written: b"xb".to_vec(), ..right() },
        Record { budget: 5, ..right() },
        Record { room: 3, ..right() },
        Record { versions: 1 << 6, ..right() },
        raised(),
        Record { kind: 7, ..raised() },
        Record { kind: 7, known: KINDS_ALIKE | NUMBER_AND_KIND, ..raised() },
        Record { number: 0, known: NUMBER_AND_KIND, ..raised() },
        Record { steps: 9, known: NUMBER_AND_KIND, ..raised() },
    ];
    records.extend(wrong_in_one_version());
    records
}

fn all_bytes(records: &[Record]) -> Vec<u8> {
    records.iter().flat_map(Record::bytes).collect()
}

/// In files that the program's buffer holds.
fn write_parts(records: &[Record], folder: &Path) -> io::Result<usize> {
    let mut parts = vec![Vec::new()];
    for bytes in records.iter().map(Record::bytes) {
        if parts[parts.len() - 1].len() + bytes.len() > MOST_BYTES {
            parts.push(Vec::new());
        }
        let last = parts.len() - 1;
        parts[last].extend(bytes);
    }
    for (number, part) in parts.iter().enumerate() {
        fs::write(folder.join(format!("real_gsub_{}.bin", number + 1)), part)?;
    }
    Ok(parts.len())
}

/// The numbers of records and of files of real Lua.
pub fn write(data: &Path, folder: &Path) -> io::Result<(usize, usize)> {
    let cases = real::cases(&data.join("real_gsub.txt").to_string_lossy())?;
    let real: Vec<Record> = cases.iter().flat_map(real_records).collect();
    let parts = write_parts(&real, folder)?;
    fs::write(folder.join("trial_rows.bin"), all_bytes(&rows(&data.join("rows.txt"))?))?;
    fs::write(folder.join("wrong_trials.bin"), all_bytes(&wrong()))?;
    Ok((real.len(), parts))
}
