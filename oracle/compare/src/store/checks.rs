//! The stored answers of the checks, a file for each kind, and of the check of a literal.
//!
//! The answers are luck's, with the port's own refusals 30, 25 and 23 around them, and 39 for patterns with a reversed range; the
//! library is not asked.

use std::fs;
use std::io;
use std::path::Path;

use crate::kind::Kind;
use crate::reference::VERSIONS;
use crate::reference::checks::{Body, Text};
use crate::store::picked;
use crate::texts::random::Random;
use library::{Answer, Literal};

const SEED: u64 = 2;
const TEXTS_OF_A_KIND: usize = 2000;
const LITERALS: usize = 2000;

pub const WRONG_FILE: &str = "wrong_checks.bin";
const LITERALS_FILE: &str = "checked_literals.bin";
const WRONG_LITERALS_FILE: &str = "wrong_checked_literals.bin";
const CUT_OFF_FILE: &str = "cut_off.bin";

/// Numbers that are no version and fit a record.
const NO_VERSIONS: [u8; 3] = [0, 7, 255];

#[derive(Debug, Clone, Copy)]
pub struct Question<'text> {
    pub kind: u8,
    pub version: u8,
    pub captures: Option<u32>,
    pub text: &'text [u8],
}

#[derive(Default)]
pub struct Records {
    pub count: usize,
    pub bytes: Vec<u8>,
}

impl Records {
    pub fn question(&mut self, question: &Question<'_>) {
        self.bytes.push(question.kind);
        self.bytes.push(question.version);
        self.bytes.push(u8::from(question.captures.is_some()));
        self.word(question.captures.unwrap_or_default());
        self.short(question.text.len());
        self.bytes.extend_from_slice(question.text);
        self.count += 1;
    }

    pub fn answer(&mut self, answer: &Answer) {
        self.bytes.push(u8::try_from(answer.number).expect("refusals are under 256"));
        self.short(answer.offset);
        self.word(answer.first);
        self.word(answer.second);
        self.short(answer.count);
    }

    pub fn push(&mut self, question: &Question<'_>, answer: &Answer) {
        self.question(question);
        self.answer(answer);
    }

    pub fn push_literal(&mut self, question: &Question<'_>, start: u32, literal: &Literal) {
        let Literal { number, first, second, skipped, spanned, start: from, end, offset, count } = *literal;
        self.question(question);
        self.word(start);
        self.bytes.push(skipped);
        self.answer(&Answer { number, first, second, offset, count });
        self.bytes.push(spanned);
        self.word(from);
        self.word(end);
    }

    fn short(&mut self, number: usize) {
        let number = u16::try_from(number).expect("stored texts are short");
        self.bytes.extend_from_slice(&number.to_le_bytes());
    }

    fn word(&mut self, number: u32) {
        self.bytes.extend_from_slice(&number.to_le_bytes());
    }
}

/// Writes the files and answers how many records and bytes they have in all.
pub fn write(folder: &Path) -> io::Result<(usize, usize)> {
    let mut all = (0, 0);
    let mut write_file = |name: &str, records: &Records| {
        all = (all.0 + records.count, all.1 + records.bytes.len());
        fs::write(folder.join(name), &records.bytes)
    };
    for kind in Kind::ALL {
        write_file(file(kind), &kind_records(kind))?;
    }
    write_file(LITERALS_FILE, &literal_records())?;
    write_file(WRONG_FILE, &wrong_records())?;
    write_file(WRONG_LITERALS_FILE, &wrong_literal_records())?;
    write_file(CUT_OFF_FILE, &cut_off())?;
    Ok(all)
}

fn versions() -> impl Iterator<Item = u8> {
    VERSIONS.map(|version| version as u8)
}

fn known(captures: Option<u32>) -> Option<usize> {
    captures.map(|count| count as usize)
}

const fn file(kind: Kind) -> &'static str {
    match kind {
        Kind::Format => "formats.bin",
        Kind::Pattern => "patterns.bin",
        Kind::Pack => "packs.bin",
        Kind::Packsize => "packsizes.bin",
        Kind::Replacement => "replacements.bin",
        Kind::Date => "dates.bin",
    }
}

/// The texts picked by hand in every version, some of them under numbers that are no version, and random ones in one version each.
fn kind_records(kind: Kind) -> Records {
    let mut records = Records::default();
    let mut add = |version: u8, captures: Option<u32>, text: &[u8]| {
        let question = Question { kind: kind.letter(), version, captures, text };
        records.push(&question, &Body::new(text).check(kind, version.into(), known(captures)));
    };
    let edges = picked::edges(kind);
    for text in &edges {
        for version in versions() {
            picked::counts(kind).iter().for_each(|captures| add(version, *captures, text));
        }
    }
    for version in NO_VERSIONS {
        edges.iter().take(4).for_each(|text| add(version, None, text));
        add(version, None, b"\xFF");
    }
    let mut random = Random::new(SEED + u64::from(kind.letter()));
    for _ in 0..TEXTS_OF_A_KIND {
        let text = picked::hostile(&mut random, kind);
        let version = 1 + random.below(6) as u8;
        let counts = picked::counts(kind);
        add(version, counts[random.below(counts.len())], &text);
    }
    records
}

fn literal_records() -> Records {
    const STARTS: [u32; 6] = [0, 1, 10, 0x7FFF_FFFF, u32::MAX - 1, u32::MAX];
    let mut records = Records::default();
    let mut add = |question: &Question<'_>, start: u32| {
        let Question { kind, version, captures, text } = *question;
        records.push_literal(question, start, &Text::new(text).check(kind, version.into(), known(captures), start));
    };
    for (index, text) in picked::LITERALS.iter().enumerate() {
        for version in versions().chain(NO_VERSIONS) {
            for kind in *b"FPKSGDQ" {
                add(&Question { kind, version, captures: Some(1), text }, STARTS[(index + usize::from(version)) % STARTS.len()]);
            }
        }
    }
    for (index, text) in picked::range_literals().iter().enumerate() {
        for version in versions() {
            let question = Question { kind: Kind::Pattern.letter(), version, captures: None, text };
            add(&question, STARTS[(index + usize::from(version)) % STARTS.len()]);
        }
    }
    let mut random = Random::new(SEED);
    for _ in 0..LITERALS {
        let kind = Kind::ALL[random.below(Kind::ALL.len())];
        let text = picked::literal(&mut random, kind);
        let counts = picked::counts(kind);
        let captures = counts[random.below(counts.len())];
        let question = Question { kind: kind.letter(), version: 1 + random.below(6) as u8, captures, text: &text };
        add(&question, STARTS[random.below(STARTS.len())]);
    }
    records
}

/// Four records that are right, and others that are wrong in one field each, or have a letter that is no kind.
fn wrong_records() -> Records {
    const FORMAT: Question<'_> = Question { kind: b'F', version: 4, captures: None, text: b"%d%#d" };
    const MODIFIER: Answer = Answer { number: 6, offset: 3, first: 35, second: 100, count: 0 };
    const PATTERN: Question<'_> = Question { kind: b'P', version: 1, captures: None, text: b"(a)()" };
    const CAPTURES: Answer = Answer { number: 0, offset: 0, first: 0, second: 0, count: 2 };
    const REPLACEMENT: Question<'_> = Question { kind: b'G', version: 2, captures: Some(1), text: b"%2" };
    const INDEX: Answer = Answer { number: 21, offset: 1, first: 0, second: 0, count: 0 };
    const DATE: Question<'_> = Question { kind: b'D', version: 2, captures: None, text: b"%Q" };
    const SPECIFIER: Answer = Answer { number: 22, offset: 1, first: 0, second: 0, count: 0 };
    let mut records = Records::default();
    records.push(&FORMAT, &MODIFIER);
    records.push(&FORMAT, &Answer { number: 2, ..MODIFIER });
    records.push(&FORMAT, &Answer { offset: 2, ..MODIFIER });
    records.push(&FORMAT, &Answer { first: 36, ..MODIFIER });
    records.push(&FORMAT, &Answer { second: 0x10000 + 100, ..MODIFIER });
    records.push(&FORMAT, &Answer { count: 1, ..MODIFIER });
    records.push(&Question { version: 3, ..FORMAT }, &MODIFIER);
    records.push(&Question { kind: b'P', ..FORMAT }, &MODIFIER);
    records.push(&PATTERN, &CAPTURES);
    records.push(&PATTERN, &Answer { count: 3, ..CAPTURES });
    records.push(&PATTERN, &Answer { count: 258, ..CAPTURES });
    records.push(&REPLACEMENT, &INDEX);
    records.push(&Question { captures: None, ..REPLACEMENT }, &INDEX);
    records.push(&Question { captures: Some(2), ..REPLACEMENT }, &INDEX);
    records.push(&Question { captures: Some(0x0001_0001), ..REPLACEMENT }, &INDEX);
    records.push(&DATE, &SPECIFIER);
    records.push(&Question { version: 1, ..DATE }, &SPECIFIER);
    records.push(&Question { kind: b'Q', ..DATE }, &SPECIFIER);
    records
}

/// Records of which the last lacks a byte.
fn cut_off() -> Records {
    let mut records = wrong_records();
    records.bytes.pop();
    records
}

/// Two records that are right, and others that are wrong in one field each.
fn wrong_literal_records() -> Records {
    const NOTHING: Literal =
        Literal { number: 0, first: 0, second: 0, skipped: 0, spanned: 0, start: 0, end: 0, offset: 0, count: 0 };
    const QUESTION: Question<'_> = Question { kind: b'F', version: 4, captures: None, text: b"\"a%y\"" };
    const REFUSED: Literal = Literal { number: 2, first: 121, offset: 2, spanned: 1, start: 13, end: 14, ..NOTHING };
    const LONG: Question<'_> = Question { kind: b'F', version: 4, captures: None, text: b"[[%y]]" };
    const SKIPPED: Literal = Literal { skipped: 1, ..NOTHING };
    let mut records = Records::default();
    let mut wrong = |literal: Literal| records.push_literal(&QUESTION, 10, &literal);
    wrong(REFUSED);
    wrong(Literal { skipped: 1, ..REFUSED });
    wrong(Literal { number: 1, ..REFUSED });
    wrong(Literal { first: 0, ..REFUSED });
    wrong(Literal { second: 121, ..REFUSED });
    wrong(Literal { offset: 3, ..REFUSED });
    wrong(Literal { count: 1, ..REFUSED });
    wrong(Literal { start: 12, ..REFUSED });
    wrong(Literal { end: 15, ..REFUSED });
    wrong(Literal { spanned: 0, ..REFUSED });
    records.push_literal(&QUESTION, 11, &REFUSED);
    records.push_literal(&LONG, 10, &SKIPPED);
    records.push_literal(&LONG, 10, &NOTHING);
    records.push_literal(&LONG, 10, &Literal { spanned: 1, ..SKIPPED });
    records
}
