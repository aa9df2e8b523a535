//! Random patterns with many sets and ranges, literals of them, and damage to both.

use texts::random::Random;

/// Characters of two to four bytes, at the ends of each width and with each of the first and last following bytes.
const CHARACTERS: [&str; 12] =
    ["é", "\u{80}", "\u{BF}", "\u{7FF}", "€", "\u{800}", "\u{D7FF}", "\u{FFFD}", "\u{FFFF}", "😀", "\u{10000}", "\u{10FFFF}"];
/// Bytes that a set or the check reads, with their neighbours, and some others. A newline and a zero byte are bytes as others.
const ENDS: &[u8] = b"az09AZ%&$-,.]\\^[_()fb1!~ \"'\n\0\x7F";
const ESCAPED: [&str; 16] = ["a", "d", "g", "w", "z", "A", "%", "]", "-", "^", "[", "é", "1", "b", "f", "\0"];
const OPENERS: [&str; 8] = ["[", "[", "[", "[^", "[^", "[]", "[^]", "[["];
/// What stands between sets and is no fault.
const PLAIN: [&str; 12] = ["a", "é", ".", "*", "-", "%a", "%%", "%bxy", "%b[]", "%é", "()", "]"];
const FAULTS: [&str; 14] = ["%", "(", ")", "%f", "%b", "%bx", "[", "[^", "[%", "[]", "[^]", "%0", "%1", "%9"];
/// Escapes of a literal. One in a pattern's body has a backslash, and some have the literal skipped.
const ESCAPES: [&str; 12] = ["\\n", "\\\\", "\\\"", "\\'", "\\z", "\\\n", "\\]", "\\-", "\\65", "\\x5D", "\\u{5D}", "\\"];
const DAMAGE: [&[u8]; 14] = [b"[", b"]", b"%", b"-", b"^", b"z-a", b"a-z", b"(", b")", b"%f", b"\\", b"\"", b"\xC3", b"\xFF"];

/// How the ranges of a set go.
#[derive(Debug, Clone, Copy, PartialEq, Eq)]
pub enum Direction {
    /// None is reversed where its ends are of one byte each.
    Forward,
    Any,
}

/// A pattern: up to six pieces, now and then of some hundred. In one of two no range is meant to be reversed, and in most there
/// is no other fault, since a fault before a range hides it.
pub fn pattern(random: &mut Random) -> Vec<u8> {
    let direction = if random.one_in(2) { Direction::Forward } else { Direction::Any };
    let has_faults = random.one_in(4);
    let count = if random.one_in(500) { 50 + random.below(300) } else { random.below(7) };
    let mut text = Vec::new();
    let mut open = 0;
    for _ in 0..count {
        match random.below(12) {
            0 => {
                text.push(b'(');
                open += 1;
            }
            1 if open > 0 => {
                text.push(b')');
                open -= 1;
            }
            2 if has_faults => push(&mut text, random.pick(&FAULTS)),
            3 | 4 => push(&mut text, random.pick(&PLAIN)),
            5 => {
                push(&mut text, "%f");
                set(random, direction, &mut text);
            }
            _ => set(random, direction, &mut text),
        }
    }
    if !has_faults || random.one_in(2) {
        text.extend(std::iter::repeat_n(b')', open));
    }
    text
}

/// Appends a set of up to six members.
pub fn set(random: &mut Random, direction: Direction, text: &mut Vec<u8>) {
    push(text, random.pick(&OPENERS));
    for _ in 0..=random.below(6) {
        member(random, direction, text);
    }
    text.push(b']');
}

fn member(random: &mut Random, direction: Direction, text: &mut Vec<u8>) {
    match random.below(10) {
        0 => text.push(end(random)),
        1 => push(text, random.pick(&CHARACTERS)),
        2 => escaped(random, text),
        3 => text.push(b'-'),
        // A range by its looks only: an escaped member starts none.
        4 => {
            escaped(random, text);
            text.push(b'-');
            text.push(end(random));
        }
        // An end of several bytes, of which the range has one.
        5 => {
            character_or_end(random, text);
            text.push(b'-');
            character_or_end(random, text);
        }
        // `%` as the right end, and an escape for the one that looks for the `]`.
        6 => {
            text.push(if direction == Direction::Any { end(random) } else { b' ' });
            push(text, "-%");
            push(text, random.pick(&ESCAPED));
        }
        _ => range(random, direction, text),
    }
}

fn range(random: &mut Random, direction: Direction, text: &mut Vec<u8>) {
    let mut ends = [end(random), end(random)];
    if direction == Direction::Forward {
        ends.sort_unstable();
    }
    text.extend([ends[0], b'-', ends[1]]);
}

fn escaped(random: &mut Random, text: &mut Vec<u8>) {
    text.push(b'%');
    push(text, random.pick(&ESCAPED));
}

fn character_or_end(random: &mut Random, text: &mut Vec<u8>) {
    if random.one_in(2) {
        push(text, random.pick(&CHARACTERS));
    } else {
        text.push(end(random));
    }
}

fn end(random: &mut Random) -> u8 {
    if random.one_in(2) { ENDS[random.below(ENDS.len())] } else { b' ' + random.byte() % 95 }
}

/// A pattern in quotes, one in three with escapes in it, and few that are not in quotes.
pub fn literal(random: &mut Random) -> Vec<u8> {
    let mut body = pattern(random);
    if random.one_in(3) {
        for _ in 0..=random.below(2) {
            let place = random.below(body.len() + 1);
            body.splice(place..place, random.pick(&ESCAPES).bytes());
        }
    }
    let (open, close) = match random.below(16) {
        0 => ("[[", "]]"),
        1 => ("\"", random.pick(&["", "'", "\\\""])),
        2..=8 => ("\"", "\""),
        _ => ("'", "'"),
    };
    [open.as_bytes(), &body, close.as_bytes()].concat()
}

/// Damages a text in one or two places.
pub fn damage(random: &mut Random, text: &mut Vec<u8>) {
    for _ in 0..=random.below(2) {
        damage_once(random, text);
    }
}

fn damage_once(random: &mut Random, text: &mut Vec<u8>) {
    let place = random.below(text.len() + 1);
    let behind = text.len().min(place + 1 + random.below(4));
    match random.below(8) {
        0 => text.truncate(place),
        1 => drop(text.drain(place..behind)),
        2 => text.insert(place, random.byte()),
        3 => drop(text.splice(place..place, random.pick(&DAMAGE).iter().copied())),
        4 => {
            let copy = text[place..behind].to_vec();
            drop(text.splice(place..place, copy));
        }
        5 if behind < text.len() => text.swap(place, behind),
        6 if place < text.len() => text[place] ^= 1 << random.below(8),
        _ if place < text.len() => text[place] = random.pick(&DAMAGE)[0],
        _ => {}
    }
}

fn push(text: &mut Vec<u8>, part: &str) {
    text.extend_from_slice(part.as_bytes());
}
