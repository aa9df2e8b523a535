//! Random literals, made by a grammar, and damage to them.

use crate::texts::random::Random;

const SIMPLE_ESCAPES: [&str; 10] = ["\\a", "\\b", "\\f", "\\n", "\\r", "\\t", "\\v", "\\\\", "\\\"", "\\'"];
const UNDEFINED_ESCAPES: [&str; 14] =
    ["\\q", "\\A", "\\X", "\\U", "\\Z", "\\ ", "\\%", "\\[", "\\\0", "\\\u{7F}", "\\é", "\\€", "\\😀", "\\{"];
/// Characters at the ends of each width.
pub const CHARACTERS: [&str; 14] = [
    "é",
    "ß",
    "\u{80}",
    "\u{7FF}",
    "€",
    "\u{800}",
    "\u{D7FF}",
    "\u{E000}",
    "\u{FFFD}",
    "\u{FFFF}",
    "😀",
    "\u{10000}",
    "\u{10FFFF}",
    "\u{A0}",
];
const LINE_BREAKS: [&str; 10] = ["\n", "\r", "\r\n", "\n\r", "\n\n", "\r\r", "\r\n\r", "\n\r\n", "\r\r\n", "\n\n\r"];
const WHITESPACE: [&str; 6] = [" ", "\t", "\n", "\r", "\x0B", "\x0C"];
/// Where the code points' rules change, as hexadecimal digits.
pub const CODE_POINTS: [&str; 32] = [
    "0",
    "7",
    "41",
    "7F",
    "80",
    "7ff",
    "800",
    "D7FF",
    "D800",
    "dbff",
    "DC00",
    "DFFF",
    "E000",
    "FFFD",
    "FFFF",
    "10000",
    "3FFFF",
    "40000",
    "FFFFF",
    "100000",
    "10FFFF",
    "110000",
    "1FFFFF",
    "200000",
    "3FFFFFF",
    "4000000",
    "7FFFFFFF",
    "80000000",
    "FFFFFFFF",
    "100000000",
    "FFFFFFFFF",
    "FFFFFFFFFFFFFFFF",
];
const MALFORMED_ESCAPES: [&str; 20] = [
    "\\x",
    "\\x4",
    "\\xG0",
    "\\x0g",
    "\\x 1",
    "\\256",
    "\\300",
    "\\999",
    "\\u",
    "\\u{",
    "\\u41",
    "\\u{}",
    "\\u{41",
    "\\u{ 41}",
    "\\u{+41}",
    "\\u{G}",
    "\\u{4_1}",
    "\\u[41]",
    "\\u}",
    "\\u{{41}}",
];
const OPENERS: [&str; 12] = ["", "a", "[", "[=", "]]", "\"", "'", " \"", "\u{FEFF}\"", "--[[", "`", "\\"];

/// Appends a literal: mostly short, some long, and few texts that are none.
pub fn literal(random: &mut Random, text: &mut Vec<u8>) {
    match random.below(16) {
        0 => none(random, text),
        1..=4 => long_string(random, text),
        _ => short_string(random, text),
    }
}

fn none(random: &mut Random, text: &mut Vec<u8>) {
    push(text, random.pick(&OPENERS));
    let count = random.below(6);
    short_body(random, count, true, text);
    push(text, random.pick(&["", "\"", "'", "]]", "]=]", "]"]));
}

fn short_string(random: &mut Random, text: &mut Vec<u8>) {
    let quote = random.pick(&["\"", "'"]);
    let count = piece_count(random);
    // A literal of many pieces that may each be malformed is nearly always refused at its first ones.
    let has_faults = random.one_in(2 + count / 8);
    push(text, quote);
    short_body(random, count, has_faults, text);
    push(text, quote);
}

/// Mostly few, and once in five hundred enough for some thousand bytes.
pub fn piece_count(random: &mut Random) -> usize {
    if random.one_in(500) { 200 + random.below(1200) } else { random.below(14) }
}

fn short_body(random: &mut Random, count: usize, has_faults: bool, text: &mut Vec<u8>) {
    for _ in 0..count {
        if has_faults && random.one_in(4) {
            fault(random, text);
        } else {
            short_piece(random, text);
        }
    }
}

fn fault(random: &mut Random, text: &mut Vec<u8>) {
    match random.below(4) {
        0 => push(text, random.pick(&UNDEFINED_ESCAPES)),
        1 => unicode_escape(random, text),
        _ => push(text, random.pick(&MALFORMED_ESCAPES)),
    }
}

fn short_piece(random: &mut Random, text: &mut Vec<u8>) {
    match random.below(12) {
        0..=2 => plain(random, text),
        3 => push(text, random.pick(&CHARACTERS)),
        4 | 5 => push(text, random.pick(&SIMPLE_ESCAPES)),
        6 => {
            text.push(b'\\');
            push(text, random.pick(&LINE_BREAKS));
        }
        7 => push(text, &format!("\\x{:02x}", random.byte())),
        8 => decimal_escape(random, text),
        9 => whitespace_escape(random, text),
        10 => character_escape(random, text),
        _ => push(text, random.pick(&["\n", "\r", "\"", "'", "\0", "]]", "--", "%d", "0", "z"])),
    }
}

fn plain(random: &mut Random, text: &mut Vec<u8>) {
    for _ in 0..random.below(6) {
        let byte = b' ' + random.byte() % 95;
        // A backslash would begin an escape that was not asked for.
        text.push(if byte == b'\\' { b'/' } else { byte });
    }
}

fn decimal_escape(random: &mut Random, text: &mut Vec<u8>) {
    let number = if random.one_in(4) { 250 + random.below(6) } else { random.below(256) };
    let digits = random.below(4);
    push(text, &format!("\\{number:0digits$}"));
}

fn whitespace_escape(random: &mut Random, text: &mut Vec<u8>) {
    push(text, "\\z");
    let count = if random.one_in(20) { random.below(200) } else { random.below(6) };
    for _ in 0..count {
        push(text, random.pick(&WHITESPACE));
    }
}

/// `\u{XXX}` of a character, up to 16 digits long.
fn character_escape(random: &mut Random, text: &mut Vec<u8>) {
    let width = 43 + random.below(21);
    let number = random.next() >> width;
    let number = if (0xD800..0xE000).contains(&number) { 0x20AC } else { number };
    let digits = random.below(17);
    push(text, &format!("\\u{{{number:0digits$X}}}"));
}

/// `\u{XXX}` about the limits, with up to 20 zeros in front.
fn unicode_escape(random: &mut Random, text: &mut Vec<u8>) {
    push(text, "\\u{");
    push(text, &"0".repeat(random.below(21)));
    push(text, random.pick(&CODE_POINTS));
    push(text, "}");
}

/// A long string of level 0 to 5, with line breaks, escapes that are none there, and brackets of other levels inside.
fn long_string(random: &mut Random, text: &mut Vec<u8>) {
    let level = random.below(6);
    let close_level = if random.one_in(12) { random.below(6) } else { level };
    bracket(b'[', level, text);
    if random.one_in(2) {
        push(text, random.pick(&LINE_BREAKS));
    }
    for _ in 0..piece_count(random) {
        long_piece(random, text);
    }
    bracket(b']', close_level, text);
}

fn long_piece(random: &mut Random, text: &mut Vec<u8>) {
    match random.below(8) {
        0..=2 => push(text, random.pick(&LINE_BREAKS)),
        3 => bracket(b']', random.below(6), text),
        4 => push(text, random.pick(&CHARACTERS)),
        5 => short_piece(random, text),
        6 => push(text, random.pick(&["]", "=", "[", "\r", "]=", "[["])),
        _ => plain(random, text),
    }
}

fn bracket(byte: u8, level: usize, text: &mut Vec<u8>) {
    text.push(byte);
    text.extend(std::iter::repeat_n(b'=', level));
    text.push(byte);
}

/// Damages a text in one to three places.
pub fn damage(random: &mut Random, text: &mut Vec<u8>) {
    damage_with(random, &crate::texts::exhaustive::HOSTILE, text);
}

/// The same, with these symbols to insert.
pub fn damage_with(random: &mut Random, symbols: &[&[u8]], text: &mut Vec<u8>) {
    for _ in 0..=random.below(3) {
        damage_once(random, symbols, text);
    }
}

fn damage_once(random: &mut Random, symbols: &[&[u8]], text: &mut Vec<u8>) {
    let place = random.below(text.len() + 1);
    match random.below(8) {
        0 => flip(random, text),
        1 => text.truncate(place),
        2 => drop(text.drain(..place.min(text.len() / 4 + 1).min(text.len()))),
        3 => remove(random, text, place),
        4 => text.insert(place, random.byte()),
        5 => insert(text, place, random.pick(symbols)),
        6 => swap(random, text),
        _ => repeat(random, text, place),
    }
}

fn flip(random: &mut Random, text: &mut [u8]) {
    let bit = 1 << random.below(8);
    if !text.is_empty() {
        text[random.below(text.len())] ^= bit;
    }
}

fn remove(random: &mut Random, text: &mut Vec<u8>, place: usize) {
    let end = text.len().min(place + 1 + random.below(4));
    text.drain(place..end);
}

fn insert(text: &mut Vec<u8>, place: usize, symbol: &[u8]) {
    text.splice(place..place, symbol.iter().copied());
}

fn swap(random: &mut Random, text: &mut [u8]) {
    if !text.is_empty() {
        text.swap(random.below(text.len()), random.below(text.len()));
    }
}

fn repeat(random: &mut Random, text: &mut Vec<u8>, place: usize) {
    let end = text.len().min(place + 1 + random.below(8));
    let copy = text[place..end].to_vec();
    insert(text, place, &copy);
}

pub fn push(text: &mut Vec<u8>, part: &str) {
    text.extend_from_slice(part.as_bytes());
}
