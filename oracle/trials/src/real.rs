//! Stored answers of real Lua's string.gsub (`oracle/real_lua/store_gsub` makes them), asked of the library again.

use std::fs;
use std::io;

pub const BUDGET: u32 = 1_000_000;
const ROOM: usize = 4_096;
/// Differences that are printed.
const SHOWN: u64 = 20;

#[derive(Debug, Clone, PartialEq, Eq)]
pub enum Answer {
    LeftOut,
    Done(usize, Vec<u8>),
    /// By its kind, 7 standing for 10 too.
    Raised(u32),
}

pub struct Tally {
    pub asked: u64,
    pub differing: u64,
    pub left_out: u64,
}

/// A pattern, a replacement and a subject, and the answers of 5.1 to 5.4.
pub struct Case {
    pub texts: [Vec<u8>; 3],
    pub answers: Vec<Answer>,
}

/// A text between quotes, with `\` and two hexadecimal digits for what can't be printed.
pub fn text(word: &str) -> Option<Vec<u8>> {
    let inner = word.strip_prefix('"')?.strip_suffix('"')?.as_bytes();
    let mut bytes = Vec::new();
    let mut at = 0;
    while at < inner.len() {
        if inner[at] == b'\\' {
            let digits = std::str::from_utf8(inner.get(at + 1..at + 3)?).ok()?;
            bytes.push(u8::from_str_radix(digits, 16).ok()?);
            at += 3;
        } else {
            bytes.push(inner[at]);
            at += 1;
        }
    }
    Some(bytes)
}

fn answer(word: &str) -> Option<Answer> {
    if word == "-" {
        return Some(Answer::LeftOut);
    }
    if let Some(kind) = word.strip_prefix('!') {
        return Some(Answer::Raised(kind.parse().ok()?));
    }
    let (count, made) = word.split_once(':')?;
    Some(Answer::Done(count.parse().ok()?, text(made)?))
}

fn found(version: u32, pattern: &[u8], replacement: &[u8], subject: &[u8]) -> Option<Answer> {
    let mut output = vec![0; ROOM];
    let trial = library::gsub(version, pattern, replacement, subject, BUDGET, &mut output);
    match (trial.number, trial.kind) {
        (0, 0) => Some(Answer::Done(trial.replacements, output[..trial.written].to_vec())),
        (29, 10) => Some(Answer::Raised(7)),
        (29, kind) => Some(Answer::Raised(kind)),
        _ => None,
    }
}

fn case(line: &str) -> Option<Case> {
    let words: Vec<&str> = line.split(' ').collect();
    let [pattern, replacement, subject, words @ ..] = words.as_slice() else { return None };
    let mut answers: Vec<Answer> = Vec::new();
    for word in words {
        answers.push(if *word == "=" { answers.last()?.clone() } else { answer(word)? });
    }
    (answers.len() == 4).then_some(Case { texts: [text(pattern)?, text(replacement)?, text(subject)?], answers })
}

/// The cases of a stored file.
pub fn cases(file: &str) -> io::Result<Vec<Case>> {
    let content = fs::read_to_string(file)?;
    let lines = content.lines().enumerate().filter(|(_, line)| !line.starts_with('#'));
    lines.map(|(number, line)| case(line).ok_or_else(|| io::Error::other(format!("line {}: {line}", number + 1)))).collect()
}

impl Tally {
    fn case(&mut self, case: &Case) {
        let [pattern, replacement, subject] = &case.texts;
        for (version, wanted) in (1..=4).zip(&case.answers) {
            if *wanted == Answer::LeftOut {
                self.left_out += 1;
                continue;
            }
            self.asked += 1;
            let is = found(version, pattern, replacement, subject);
            if is.as_ref() != Some(wanted) {
                self.differing += 1;
                if self.differing <= SHOWN {
                    let texts = case.texts.each_ref().map(|text| text.escape_ascii().to_string());
                    println!("5.{version}: {texts:?}: library {is:?}, Lua {wanted:?}");
                }
            }
        }
    }
}

pub fn replay(file: &str) -> io::Result<Tally> {
    let mut tally = Tally { asked: 0, differing: 0, left_out: 0 };
    cases(file)?.iter().for_each(|case| tally.case(case));
    Ok(tally)
}
