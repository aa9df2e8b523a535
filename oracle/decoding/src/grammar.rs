//! Random literals, made by a grammar, and damage to them.

use texts::random::Random;

use crate::code_points;
use crate::exhaustive::HOSTILE;

const SIMPLE_ESCAPES: [&str; 10] = ["\\a", "\\b", "\\f", "\\n", "\\r", "\\t", "\\v", "\\\\", "\\\"", "\\'"];
const UNDEFINED_ESCAPES: [&str; 12] = ["\\q", "\\A", "\\X", "\\U{41}", "\\Z", "\\ ", "\\%", "\\[", "\\\0", "\\é", "\\😀", "\\{"];
const CHARACTERS: [&str; 9] = ["é", "\u{80}", "\u{7FF}", "€", "\u{D7FF}", "\u{E000}", "😀", "\u{10000}", "\u{10FFFF}"];
const LINE_BREAKS: [&str; 8] = ["\n", "\r", "\r\n", "\n\r", "\n\n", "\r\r", "\r\n\r", "\n\r\n"];
const WHITESPACE: [&str; 6] = [" ", "\t", "\n", "\r", "\x0B", "\x0C"];
const MALFORMED_ESCAPES: [&str; 19] = [
    "\\x", "\\x4", "\\xG0", "\\x0g", "\\x 1", "\\256", "\\300", "\\999", "\\u", "\\u{", "\\u41", "\\u{}", "\\u{41", "\\u{ 41}",
    "\\u{+41}", "\\u{G}", "\\u{4_1}", "\\u[41]", "\\u}",
];

/// What no Lua reads inside a short literal, or not with every quote.
const UNLEXED: [&str; 5] = ["\n", "\r", "\"", "'", "\r\n"];
const OPENERS: [&str; 10] = ["", "a", "[", "[=", "]]", "\"", "'", " \"", "\u{FEFF}\"", "\\"];
const CLOSERS: [&str; 6] = ["", "\"", "'", "]]", "]=]", "]"];

/// A literal that the decoder is asked about: mostly short, some long, and few texts that are none.
pub fn literal(random: &mut Random) -> Vec<u8> {
    match random.below(16) {
        0 => {
            let body = short_body(random, 6, true);
            [random.pick(&OPENERS), &body, random.pick(&CLOSERS)].concat().into_bytes()
        }
        1..=3 => long_literal(random).into_bytes(),
        _ => {
            let quote = random.pick(&["\"", "'"]);
            let most = if random.one_in(500) { 600 } else { 10 };
            let body = short_body(random, most, true);
            [quote, &body, quote].concat().into_bytes()
        }
    }
}

/// A short literal that every Lua reads as one: what it refuses of it is an escape.
pub fn lexed_literal(random: &mut Random) -> Vec<u8> {
    let body = short_body(random, 8, false);
    format!("\"{body}\"").into_bytes()
}

/// Few bodies have faults: one with many pieces that may each be at fault would nearly always be refused at its first ones.
fn short_body(random: &mut Random, most: usize, has_unlexed: bool) -> String {
    let has_faults = random.one_in(4);
    let mut body = String::new();
    for _ in 0..random.below(most + 1) {
        match random.below(12) {
            0 if has_faults => body += random.pick(&UNDEFINED_ESCAPES),
            1 if has_faults => body += random.pick(&MALFORMED_ESCAPES),
            2 if has_unlexed => body += random.pick(&UNLEXED),
            _ => short_piece(random, has_faults, &mut body),
        }
    }
    body
}

fn short_piece(random: &mut Random, has_faults: bool, body: &mut String) {
    match random.below(12) {
        0 => body.push(char::from(b'A' + random.byte() % 26)),
        1 => *body += random.pick(&["u{41}", "{", "}", "0", "F", " ", "]]", "\0", "--"]),
        2 => *body += random.pick(&CHARACTERS),
        3 => *body += random.pick(&SIMPLE_ESCAPES),
        4 => *body += &format!("\\{}", random.pick(&LINE_BREAKS[..4])),
        5 => *body += &format!("\\x{:02x}", random.byte()),
        6 => *body += &format!("\\{:0digits$}", random.byte(), digits = random.below(4)),
        7 => {
            *body += "\\z";
            (0..random.below(6)).for_each(|_| *body += random.pick(&WHITESPACE));
        }
        _ if has_faults => *body += &format!("\\u{{{}}}", code_points::any_digits(random)),
        8 => *body += &format!("\\u{{{:X}}}", code_points::any_width(random) & 0xFFFF),
        9 => *body += &format!("\\u{{{:x}}}", 0xD800 + random.below(0x800)),
        _ => *body += &format!("\\u{{{:X}}}", code_points::any_width(random) & 0x7FFF_FFFF),
    }
}

/// Of level 0 to 3, with line breaks, escapes that are none there, and brackets of other levels inside.
fn long_literal(random: &mut Random) -> String {
    let level = random.below(4);
    let close_level = if random.one_in(12) { random.below(4) } else { level };
    let equals = |level: usize| "=".repeat(level);
    let mut text = format!("[{}[", equals(level));
    for _ in 0..random.below(10) {
        match random.below(4) {
            0 => text += random.pick(&LINE_BREAKS),
            1 => text += &format!("]{}]", equals(random.below(4))),
            2 => text += random.pick(&["]", "=", "[", "\r", "]=", "[[", "é"]),
            _ => short_piece(random, true, &mut text),
        }
    }
    text + &format!("]{}]", equals(close_level))
}

/// Damages a text in one or two places.
pub fn damage(random: &mut Random, text: &mut Vec<u8>) {
    for _ in 0..=random.below(2) {
        damage_once(random, text);
    }
}

fn damage_once(random: &mut Random, text: &mut Vec<u8>) {
    let place = random.below(text.len() + 1);
    let end = text.len().min(place + 1 + random.below(6));
    match random.below(7) {
        0 => text.truncate(place),
        1 => drop(text.drain(place..end)),
        2 => text.insert(place, random.byte()),
        3 => drop(text.splice(place..place, random.pick(&HOSTILE).iter().copied())),
        4 => {
            let copy = text[place..end].to_vec();
            drop(text.splice(place..place, copy));
        }
        5 if place < text.len() => text[place] ^= 1 << random.below(8),
        _ if place < text.len() => text[place] = random.pick(&HOSTILE)[0],
        _ => {}
    }
}
