//! The texts that are measured on. They are the same in every run.

use compare::kind::Kind;
use compare::reference::{self, checks::Body, wide};
use compare::texts::bodies;
use compare::texts::grammar::{self, push};
use compare::texts::random::Random;

const SEED: u64 = 20_240_501;
const VERSION: u32 = 4;
/// A body's or literal's bytes where it is short.
const SHORT: std::ops::RangeInclusive<usize> = 5..=40;
const SHORT_COUNT: usize = 1000;

/// The usual lines of a log: dates, words, numbers and pairs, and no `#`.
const LOG: [&str; 6] = [
    "2024-05-01 12:07:17 drive_2 state=run speed=1487 torque=62",
    "2024-05-01 12:07:18 door_A state=closed cabin=3",
    "2024-05-01 12:07:19 drive_2 trip=17 cause=overcurrent_phase_u",
    "2024-05-01 12:07:23 brake (released), supply 24.1 V",
    "2024-05-01 12:07:24 cabin 3 -> 4, load 412 kg",
    "2024-05-01 12:07:31 door_B state=opening retries=2",
];
const RARE_LINE: &str = "2024-05-01 12:08:00 note #42 by the operator";
/// One line in so many is the rare one.
const RARE: usize = 50;

const ASCII_WORDS: [&str; 6] = ["trip ", "drive ", "cabin ", "overcurrent, ", "17 ", "state=run\n"];
const MIXED_WORDS: [&str; 12] = [
    "trip ",
    "Türöffner ",
    "Überlast ",
    "κλειδί ",
    "ошибка ",
    "门已关闭 ",
    "😀 ",
    "cabin ",
    "17 ",
    "24,1 °C ",
    "€ ",
    "state=run\n",
];

#[derive(Debug, Clone, Copy, PartialEq, Eq)]
pub enum Alphabet {
    Any,
    Ascii,
}

/// Pieces in a row, as many as fit, and spaces up to the size.
fn filled(size: usize, mut piece: impl FnMut() -> Vec<u8>) -> Vec<u8> {
    let mut text = Vec::with_capacity(size);
    loop {
        let next = piece();
        if text.len() + next.len() > size {
            text.resize(size, b' ');
            return text;
        }
        text.extend(next);
    }
}

fn words(words: &[&str], size: usize) -> Vec<u8> {
    let mut random = Random::new(SEED);
    filled(size, || random.pick(words).as_bytes().to_vec())
}

pub fn ascii(size: usize) -> Vec<u8> {
    words(&ASCII_WORDS, size)
}

/// Characters of one to four bytes.
pub fn mixed(size: usize) -> Vec<u8> {
    words(&MIXED_WORDS, size)
}

pub fn log(size: usize) -> Vec<u8> {
    let mut random = Random::new(SEED);
    filled(size, || {
        let line = if random.one_in(RARE) { RARE_LINE } else { random.pick(&LOG) };
        format!("{line}\n").into_bytes()
    })
}

pub fn short_bodies(kind: Kind) -> Vec<Vec<u8>> {
    let mut random = Random::new(SEED);
    (0..SHORT_COUNT).map(|_| short_body(&mut random, kind, |_| true)).collect()
}

/// Sets, each with a range or several.
pub fn sets_of_ranges(size: usize) -> Vec<u8> {
    const SETS: [&str; 6] = ["[a-z]", "[A-Za-z_]", "[0-9A-Fa-f]", "[^0-9]", "[%w_.-]", "[!-~]"];
    words(&SETS, size)
}

/// Literals by the grammar, some of them at fault. None has a code point that version 4 takes and luck does not (F-4).
pub fn short_literals() -> Vec<Vec<u8>> {
    let mut random = Random::new(SEED);
    let is_wanted = |text: &[u8]| SHORT.contains(&text.len()) && wide::value(VERSION, text).is_none();
    (0..SHORT_COUNT).map(|_| first(&mut random, grammar::literal, is_wanted)).collect()
}

/// Literals in quotes with nothing to decode.
pub fn short_plain_literals() -> Vec<Vec<u8>> {
    let mut random = Random::new(SEED);
    let text: Vec<u8> = ascii(SHORT_COUNT).iter().map(|&byte| if byte == b'\n' { b' ' } else { byte }).collect();
    let quotes = quoted(b"").len();
    let (least, most) = (SHORT.start() - quotes, SHORT.end() - quotes);
    (0..SHORT_COUNT)
        .map(|_| {
            let start = random.below(text.len() - most);
            quoted(&text[start..start + least + random.below(most - least + 1)])
        })
        .collect()
}

/// A body by the grammar, some of them at fault. No pattern has a reversed range, which luck takes (F-10).
fn short_body(random: &mut Random, kind: Kind, is_wanted: impl Fn(&[u8]) -> bool) -> Vec<u8> {
    let is_alike = |text: &[u8]| Body::new(text).reversed(kind, VERSION).is_none();
    first(
        random,
        |random, text| bodies::body(random, kind, text),
        |text| SHORT.contains(&text.len()) && is_wanted(text) && is_alike(text),
    )
}

/// The first of the texts that is wanted.
fn first(random: &mut Random, make: impl Fn(&mut Random, &mut Vec<u8>), is_wanted: impl Fn(&[u8]) -> bool) -> Vec<u8> {
    loop {
        let mut text = Vec::new();
        make(random, &mut text);
        if is_wanted(&text) {
            return text;
        }
    }
}

/// A body without a fault: bodies by the grammar, one after the other.
pub fn accepted(kind: Kind, alphabet: Alphabet, size: usize) -> Vec<u8> {
    let mut random = Random::new(SEED);
    let is_wanted = |text: &[u8]| (alphabet == Alphabet::Any || text.is_ascii()) && fits_anywhere(kind, text);
    filled(size, || short_body(&mut random, kind, is_wanted))
}

/// Whether the body is accepted after and before any others that are. Captures have a limit, so a pattern may have none; of pack
/// formats the alignment goes on to the next, so the body must be fine after the largest and leave one that the largest size fits.
fn fits_anywhere(kind: Kind, text: &[u8]) -> bool {
    let count = |text: &[u8]| {
        let answer = Body::new(text).check(kind, VERSION, Some(1));
        (answer.number == 0).then_some(answer.count)
    };
    match kind {
        Kind::Pattern => count(text) == Some(0),
        Kind::Pack | Kind::Packsize => count(text).is_some() && count(&[b"!16", text, b"i16"].concat()).is_some(),
        Kind::Format | Kind::Replacement | Kind::Date => count(text).is_some(),
    }
}

/// A literal in quotes with nothing to decode.
pub fn plain_literal(size: usize) -> Vec<u8> {
    quoted(&ascii(size))
}

/// A literal in quotes with every kind of escape, several in each 40 bytes.
pub fn escaped_literal(size: usize) -> Vec<u8> {
    let mut random = Random::new(SEED);
    quoted(&filled(size, || escaped_piece(&mut random)))
}

/// What is between the quotes of a literal that can be decoded. The space keeps the next one's digits from an escape's.
fn escaped_piece(random: &mut Random) -> Vec<u8> {
    let is_wanted = |text: &[u8]| SHORT.contains(&text.len()) && text[0] != b'[' && reference::by_luck(VERSION, text).is_ok();
    let literal = first(random, grammar::literal, is_wanted);
    [&literal[1..literal.len() - 1], b" "].concat()
}

/// A literal in quotes of these escapes alone. Each begins with a backslash, which ends the digits of the one before.
fn literal_of(size: usize, escape: impl Fn(&mut Random) -> String) -> Vec<u8> {
    let mut random = Random::new(SEED);
    quoted(&filled(size, || escape(&mut random).into_bytes()))
}

pub fn hexadecimal_literal(size: usize) -> Vec<u8> {
    literal_of(size, |random| {
        let byte = random.byte();
        if random.one_in(2) { format!("\\x{byte:02x}") } else { format!("\\x{byte:02X}") }
    })
}

/// Of one to three digits.
pub fn decimal_literal(size: usize) -> Vec<u8> {
    literal_of(size, |random| {
        let digits = 1 + random.below(3);
        let number = random.below([10, 100, 256][digits - 1]);
        format!("\\{number:0digits$}")
    })
}

pub fn line_break_literal(size: usize) -> Vec<u8> {
    literal_of(size, |random| random.pick(&["\\\n", "\\\r", "\\\r\n", "\\\n\r"]).to_owned())
}

/// Of a letter, a quote or a backslash.
pub fn letter_literal(size: usize) -> Vec<u8> {
    const ESCAPES: [&str; 10] = ["\\a", "\\b", "\\f", "\\n", "\\r", "\\t", "\\v", "\\\\", "\\\"", "\\'"];
    literal_of(size, |random| random.pick(&ESCAPES).to_owned())
}

/// Characters, by one to six digits.
pub fn code_point_literal(size: usize) -> Vec<u8> {
    const AFTER_LAST: usize = 0x11_0000;
    literal_of(size, |random| {
        loop {
            let digits = 1 + random.below(6);
            let number = random.below(AFTER_LAST.min(1 << (4 * digits)));
            if char::from_u32(number as u32).is_some() {
                return format!("\\u{{{number:0digits$X}}}");
            }
        }
    })
}

/// A literal in long brackets, with line breaks of one CR, which become LF.
pub fn long_literal(size: usize) -> Vec<u8> {
    bracketed("\r", size)
}

/// The same with line breaks that stay as they are.
pub fn long_lf_literal(size: usize) -> Vec<u8> {
    bracketed("\n", size)
}

/// The same with line breaks of two bytes, which become one.
pub fn long_crlf_literal(size: usize) -> Vec<u8> {
    bracketed("\r\n", size)
}

fn bracketed(line_break: &str, size: usize) -> Vec<u8> {
    let mut random = Random::new(SEED);
    let lines = filled(size, || random.pick(&ASCII_WORDS).replace('\n', line_break).into_bytes());
    [b"[==[", lines.as_slice(), b"]==]"].concat()
}

fn quoted(body: &[u8]) -> Vec<u8> {
    [b"\"", body, b"\""].concat()
}

/// Lines for the program `bodies`, the last one filled up to the size.
pub fn lines(size: usize) -> Vec<u8> {
    let mut random = Random::new(SEED);
    let mut lines = filled(size, || line(&mut random));
    if let Some(last) = lines.last_mut() {
        *last = b'\n';
    }
    lines
}

/// A head, one in fifty that does not fit, and a short body without a newline.
fn line(random: &mut Random) -> Vec<u8> {
    let kind = Kind::ALL[random.below(Kind::ALL.len())];
    let mut line = vec![kind.letter(), b'1' + random.below(6) as u8];
    let has_count = kind == Kind::Replacement && random.one_in(2);
    push(&mut line, &if has_count { format!("{:>2}", random.below(4)) } else { "  ".to_owned() });
    line.push(if random.one_in(50) { b'_' } else { b' ' });
    line.extend(short_body(random, kind, |text| !text.contains(&b'\n')));
    line.push(b'\n');
    line
}
