//! Compares the proved library's trial of gsub with a plain program of the same rules, in one process: number, kind, bytes written,
//! replacements, steps, and every byte of the output.

mod real;
mod store;

use std::path::Path;
use std::process::ExitCode;

use texts::exhaustive::{self, Form};
use texts::random::Random;
use texts::words::{self, DEFAULT_SEED};
use trials::plain;

const USAGE: &str = "usage: trials short | trials long [SEED] [COUNT] | trials real FILE | trials store DATA DIR";
const DEFAULT_COUNT: u64 = 5_000_000;
/// What the output holds before a trial, and on both sides of it.
const FILL: u8 = 0xA5;
const GUARD: usize = 8;
/// Differences that are printed.
const SHOWN: u64 = 20;

/// The bytes of which every short pattern is made.
const HOSTILE: &[u8] = b"a(%)[]^-*+?.$1bfwA\x00";
const RAW: Form = Form::new("by themselves", b"", b"");
const SUBJECTS: [&[u8]; 5] = [b"", b"a", b"ab1", b"aab(a)", b"]-%aa\x00"];
const REPLACEMENTS: [&[u8]; 4] = [b"x", b"<%0>%1", b"%2", b"%a%"];
const PATTERN_PARTS: [&[u8]; 58] = [
    b"a",
    b"b",
    b"c",
    b".",
    b"%",
    b"%%",
    b"(",
    b")",
    b"()",
    b"(a",
    b"[",
    b"]",
    b"[^",
    b"-",
    b"*",
    b"+",
    b"?",
    b"^",
    b"$",
    b"%a",
    b"%A",
    b"%c",
    b"%C",
    b"%d",
    b"%D",
    b"%g",
    b"%G",
    b"%l",
    b"%L",
    b"%p",
    b"%P",
    b"%s",
    b"%S",
    b"%u",
    b"%U",
    b"%w",
    b"%W",
    b"%x",
    b"%X",
    b"%z",
    b"%Z",
    b"%0",
    b"%1",
    b"%2",
    b"%b",
    b"%bab",
    b"%b()",
    b"%f",
    b"%f[%w]",
    b"%f[^a]",
    b"[a-c]",
    b"[%w_]",
    b"[!-%%]",
    b"[]a]",
    b"[^%s]",
    b"\x00",
    b"\xC3\xA9",
    b"a?",
];
const SUBJECT_PARTS: [&[u8]; 18] =
    [b"a", b"a", b"aa", b"b", b"c", b"ab", b"1", b"_", b" ", b"(", b")", b"%", b"]", b"-", b"A", b"\x00", b"\xC3\xA9", b"\n"];
const REPLACEMENT_PARTS: [&[u8]; 12] = [b"x", b"yz", b"%0", b"%1", b"%2", b"%3", b"%9", b"%%", b"%", b"%a", b"%\x00", b"\x00"];

fn text(random: &mut Random, parts: &[&[u8]], most: usize) -> Vec<u8> {
    (0..random.below(most + 1)).flat_map(|_| random.pick(parts).iter().copied()).collect()
}

/// One in four is of any bytes.
fn subject(random: &mut Random) -> Vec<u8> {
    if random.below(4) > 0 {
        return text(random, &SUBJECT_PARTS, 14);
    }
    (0..random.below(15)).map(|_| u8::try_from(random.below(256)).unwrap()).collect()
}

#[derive(Default)]
struct Tally {
    trials: u64,
    differing: u64,
    /// Trials by their number: 0, 25, 26, 27, 28, 29.
    numbers: [u64; 30],
    kinds: [u64; 11],
}

impl Tally {
    fn trial(&mut self, version: u32, pattern: &[u8], replacement: &[u8], subject: &[u8], budget: u32, room: usize) {
        let expected = plain::gsub(version, pattern, replacement, subject, budget, room);
        let mut bytes = vec![FILL; GUARD + room + GUARD];
        let found = library::gsub(version, pattern, replacement, subject, budget, &mut bytes[GUARD..GUARD + room]);
        let mut whole = vec![FILL; GUARD + room + GUARD];
        whole[GUARD..GUARD + expected.written.len()].copy_from_slice(&expected.written);
        let is_same = found.number == expected.number
            && found.kind == expected.kind
            && found.written == expected.written.len()
            && found.replacements == expected.replacements
            && found.steps == expected.steps
            && bytes == whole;
        self.trials += 1;
        self.numbers[expected.number as usize] += 1;
        self.kinds[expected.kind as usize] += 1;
        if !is_same {
            self.differing += 1;
            if self.differing <= SHOWN {
                println!(
                    "version {version}, pattern `{}`, replacement `{}`, subject `{}`, budget {budget}, room {room}: library {found:?} and `{}`, plain {expected:?}",
                    pattern.escape_ascii(),
                    replacement.escape_ascii(),
                    subject.escape_ascii(),
                    bytes.escape_ascii()
                );
            }
        }
    }

    /// Every pattern of up to `most` bytes.
    fn exhaustive(&mut self, most: usize) {
        let symbols: Vec<&[u8]> = HOSTILE.chunks(1).collect();
        exhaustive::texts(&symbols, most, &RAW, &mut |pattern| self.short_pattern(pattern));
    }

    fn short_pattern(&mut self, pattern: &[u8]) {
        for subject in SUBJECTS {
            for replacement in REPLACEMENTS {
                self.trial(4, pattern, replacement, subject, 1_000, 40);
            }
            self.trial(1, pattern, REPLACEMENTS[3], subject, 9, 3);
        }
    }

    /// Every byte after `%`, on every byte. Each stands once in the subject, so what is left of it tells which were taken.
    fn classes(&mut self) {
        let every_byte: Vec<u8> = (0..=u8::MAX).collect();
        for version in 1..=6 {
            for class in 0..=u8::MAX {
                for pattern in [vec![b'%', class], vec![b'[', b'%', class, b']'], vec![b'[', b'^', b'%', class, b']']] {
                    self.trial(version, &pattern, b"", &every_byte, 1_000, every_byte.len());
                }
            }
        }
    }

    /// Small budgets and rooms as often as large ones, now and then a number that is no version.
    fn random(&mut self, random: &mut Random, count: u64) {
        for _ in 0..count {
            let version = u32::try_from(random.below(8)).unwrap();
            let pattern = text(random, &PATTERN_PARTS, 8);
            let replacement = text(random, &REPLACEMENT_PARTS, 4);
            let subject = subject(random);
            let budget = [u32::try_from(random.below(30)).unwrap(), 2_000][random.below(2)];
            let room = [random.below(12), 200][random.below(2)];
            self.trial(version, &pattern, &replacement, &subject, budget, room);
        }
    }

    /// Levels and captures around their limits.
    fn limits(&mut self) {
        for levels in 190..=214 {
            for end in [&b""[..], b"a", b")", b"(", b"b"] {
                let pattern = [&b"a?".repeat(levels)[..], end].concat();
                for subject in [b"a".repeat(levels), b"a".repeat(levels + 1), b"a".repeat(10)] {
                    for budget in [levels as u32 - 1, levels as u32, 100_000] {
                        self.trial(4, &pattern, b"x", &subject, budget, 300);
                    }
                }
            }
        }
        for captures in 28..=36 {
            for part in [&b"()"[..], b"(a)", b"("] {
                let pattern = part.repeat(captures);
                self.trial(4, &pattern, b"%1%9", &b"a".repeat(40), 100_000, 300);
            }
        }
    }
}

/// The stored answers of real Lua.
fn replay(file: &str) -> ExitCode {
    match real::replay(file) {
        Ok(tally) => {
            println!("{} answers of real Lua's gsub, {} differ; {} left out", tally.asked, tally.differing, tally.left_out);
            ExitCode::from(u8::from(tally.differing > 0 || tally.asked == 0))
        }
        Err(error) => {
            eprintln!("{file}: {error}");
            ExitCode::from(2)
        }
    }
}

/// The files that the program `vectors` replays.
fn stored(data: &Path, folder: &Path) -> ExitCode {
    match store::write(data, folder) {
        Ok((records, files)) => {
            println!("{records} records of real Lua's gsub in {files} files");
            ExitCode::SUCCESS
        }
        Err(error) => {
            eprintln!("{error}");
            ExitCode::from(2)
        }
    }
}

fn run(words: &[&str]) -> Option<ExitCode> {
    let (most, seed, count) = match *words {
        ["real", file] => return Some(replay(file)),
        ["store", data, folder] => return Some(stored(Path::new(data), Path::new(folder))),
        ["short"] => (3, DEFAULT_SEED, 500_000),
        ["long"] => (4, DEFAULT_SEED, DEFAULT_COUNT),
        ["long", seed] => (4, seed.parse().unwrap_or(DEFAULT_SEED), DEFAULT_COUNT),
        ["long", seed, count] => (4, seed.parse().unwrap_or(DEFAULT_SEED), count.parse().unwrap_or(DEFAULT_COUNT)),
        _ => return None,
    };
    Some(compare(most, seed, count))
}

fn compare(most: usize, seed: u64, count: u64) -> ExitCode {
    let mut tally = Tally::default();
    tally.limits();
    tally.classes();
    tally.exhaustive(most);
    tally.random(&mut Random::new(seed), count);
    println!("{} trials, {} differ", tally.trials, tally.differing);
    for (number, count) in tally.numbers.iter().enumerate().filter(|(_, count)| **count > 0) {
        println!("  number {number}: {count}");
    }
    for (kind, count) in tally.kinds.iter().enumerate().skip(1) {
        println!("  kind {kind}: {count}");
    }
    ExitCode::from(u8::from(tally.differing > 0))
}

fn main() -> ExitCode {
    words::run(USAGE, run)
}
