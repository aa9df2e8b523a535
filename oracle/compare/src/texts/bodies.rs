//! Random bodies of each kind, made by a grammar. A body has either no fault that the grammar knows of, or one in every few
//! pieces: a long body of pieces that may each be at fault would nearly always be refused at its first ones.

use crate::kind::Kind;
use crate::texts::grammar::{self, push};
use crate::texts::random::Random;

/// Appends a body: mostly short, and now and then of some thousand bytes.
pub fn body(random: &mut Random, kind: Kind, text: &mut Vec<u8>) {
    let count = grammar::piece_count(random);
    let has_faults = random.one_in(2 + count / 8);
    match kind {
        Kind::Format => pieces(random, count, has_faults, text, specifier, wild_specifier),
        Kind::Pattern => pattern(random, count, has_faults, text),
        Kind::Pack => pieces(random, count, has_faults, text, option, wild_option),
        Kind::Packsize => pieces(random, count, has_faults, text, fixed_option, wild_option),
        Kind::Replacement => pieces(random, count, has_faults, text, replacement, wild_replacement),
        Kind::Date => date(random, count, has_faults, text),
    }
}

/// Appends a literal with a body of a random kind: quoted, some with escapes, some long strings, and few that are none.
pub fn literal(random: &mut Random, text: &mut Vec<u8>) {
    if random.one_in(8) {
        grammar::literal(random, text);
        return;
    }
    let quote = random.pick(&["\"", "'"]);
    let kind = Kind::ALL[random.below(Kind::ALL.len())];
    push(text, quote);
    for _ in 0..=random.below(2) {
        body(random, kind, text);
        match random.below(16) {
            0 => push(text, random.pick(&["\\0", "\\9", "\\x41", "\\u{41}", "\\65"])),
            1..=4 => push(text, random.pick(&["\\n", "\\\\", "\\\"", "\\'", "\\z ", "\\\n", "\\é", "\\%", "\\X", "\\U"])),
            _ => {}
        }
    }
    push(text, quote);
}

type Piece = fn(&mut Random, &mut Vec<u8>);

/// Pieces with plain text between them. `wild` ones may be at fault.
fn pieces(random: &mut Random, count: usize, has_faults: bool, text: &mut Vec<u8>, fine: Piece, wild: Piece) {
    for _ in 0..count {
        if has_faults && random.one_in(3) {
            wild(random, text);
        } else {
            fine(random, text);
        }
    }
}

/// A few letters or a character of several bytes: nothing that a check reads, but in a pack format.
fn plain(random: &mut Random, text: &mut Vec<u8>) {
    if random.one_in(3) {
        push(text, random.pick(&grammar::CHARACTERS));
    } else {
        push(text, random.pick(&["a", "id: ", "x=y", "\n", "\t", "\0", ", ", "~", "\\\\", "/", ":"]));
    }
}

/// So many digits, mostly one or two, and now and then far more than any number has.
fn digits(random: &mut Random, text: &mut Vec<u8>) {
    let count = match random.below(40) {
        0 => random.below(400),
        1..=4 => 3 + random.below(8),
        _ => 1 + random.below(2),
    };
    for _ in 0..count {
        text.push(b'0' + random.below(10) as u8);
    }
}

fn byte_of(random: &mut Random, bytes: &[u8], text: &mut Vec<u8>) {
    text.push(bytes[random.below(bytes.len())]);
}

/// A specifier that most versions take.
fn specifier(random: &mut Random, text: &mut Vec<u8>) {
    match random.below(6) {
        0 => plain(random, text),
        1 => push(text, "%%"),
        2 => push(text, random.pick(&["%5.2f", "%-10s", "%05d", "%+d", "%#x", "% d", "%.3s", "%-5c", "%08.3f", "%.99f", "%99d"])),
        _ => {
            text.push(b'%');
            byte_of(random, b"cdiouxXeEfgGqs", text);
        }
    }
}

/// Any flags, width, precision and conversion.
fn wild_specifier(random: &mut Random, text: &mut Vec<u8>) {
    text.push(b'%');
    let flags = if random.one_in(8) { random.below(30) } else { random.below(3) };
    for _ in 0..flags {
        byte_of(random, b"-+ #0", text);
    }
    if random.one_in(2) {
        digits(random, text);
    }
    if random.one_in(3) {
        text.push(b'.');
        if random.one_in(2) {
            digits(random, text);
        }
    }
    match random.below(12) {
        0 => push(text, random.pick(&grammar::CHARACTERS)),
        1 => {}
        2 => text.push(random.byte() & 0x7F),
        _ => byte_of(random, b"cdiouxXeEfgGqsaAp*%", text),
    }
}

/// Captures are closed at the end where the body is to have no fault.
fn pattern(random: &mut Random, count: usize, has_faults: bool, text: &mut Vec<u8>) {
    let (mut seen, mut open) = (0, 0);
    let most = if random.one_in(4) { 32 } else { 3 };
    for _ in 0..count {
        match random.below(12) {
            0 if seen < most => {
                text.push(b'(');
                (seen, open) = (seen + 1, open + 1);
            }
            1 if open > 0 => {
                text.push(b')');
                open -= 1;
            }
            2 if seen < most => {
                push(text, "()");
                seen += 1;
            }
            3 => set(random, text),
            4 => push(text, random.pick(&["%bxy", "%b()", "%bé", "%f[%w]", "%f[^]]", "%f[]]"])),
            5 if open == 0 && seen > 0 => {
                text.push(b'%');
                text.push(b'1' + random.below(seen.min(9)) as u8);
            }
            6 if has_faults => wild_item(random, text),
            7 | 8 => {
                text.push(b'%');
                byte_of(random, b"acdglpsuwxzADW.%-[]()^$ \x7F", text);
            }
            9 => byte_of(random, b"*+-?.^$]", text),
            _ => plain(random, text),
        }
    }
    if !has_faults || random.one_in(2) {
        text.extend(std::iter::repeat_n(b')', open));
    }
}

fn set(random: &mut Random, text: &mut Vec<u8>) {
    push(text, random.pick(&["[", "[^", "[]", "[^]"]));
    for _ in 0..=random.below(5) {
        match random.below(6) {
            0 => push(text, random.pick(&grammar::CHARACTERS)),
            1 => push(text, random.pick(&["%]", "%%", "%a", "%-", "%é"])),
            2 => push(text, random.pick(&["a-z", "[", "^", "-", "%-%", "(", ")"])),
            _ => text.push(b'a' + random.below(26) as u8),
        }
    }
    text.push(b']');
}

fn wild_item(random: &mut Random, text: &mut Vec<u8>) {
    match random.below(6) {
        0 => push(text, random.pick(&["%", "[", "[^", "(", ")", "%f", "%b", "[%"])),
        1 => {
            text.push(b'%');
            text.push(b'0' + random.below(10) as u8);
        }
        2 => text.extend(std::iter::repeat_n(b'(', 20 + random.below(20))),
        3 => push(text, &"()".repeat(28 + random.below(8))),
        4 => push(text, random.pick(&["%bé", "%b€", "%fé", "%é", "[é", "%b\u{10FFFF}"])),
        _ => text.push(random.byte() & 0x7F),
    }
}

/// An option with a size that is allowed.
fn option(random: &mut Random, text: &mut Vec<u8>) {
    match random.below(4) {
        0 => push(text, random.pick(&["s", "z", "s1", "s8", "s16", "Xs", "Xs4"])),
        _ => fixed_option(random, text),
    }
}

/// The same, of a size that is known beforehand. Alignments are powers of 2 but where `!` was not read yet.
fn fixed_option(random: &mut Random, text: &mut Vec<u8>) {
    match random.below(8) {
        0 => push(text, random.pick(&["!", "!1", "!2", "!4", "!8", "!16", "!04"])),
        1 => push(text, random.pick(&["Xi", "Xd", "Xb", "Xx", "Xi8", "XI16", "Xj"])),
        2 => {
            text.push(b'c');
            digits(random, text);
        }
        3 => push(text, random.pick(&["i1", "i2", "i4", "i8", "i16", "I08", "I016", "i00000000000000000000001"])),
        4 => push(text, random.pick(&[" ", "<", ">", "=", "x", "  "])),
        _ => byte_of(random, b"bBhHlLjJTfdniI", text),
    }
}

fn wild_option(random: &mut Random, text: &mut Vec<u8>) {
    match random.below(8) {
        0 => push(
            text,
            random.pick(&["X", "c", "Xz", "Xc1", "X!", "XX", "X<", "b1", "d8", "0", "9", "y", "!3", "!5", "!6j", "!12"]),
        ),
        1 => push(text, random.pick(&grammar::CHARACTERS)),
        2 => push(text, random.pick(&["i3", "i5", "i6", "i7", "s3", "i12", "I15", "Xi3", "Xs9"])),
        3 => push(text, random.pick(&["i0", "i17", "i4294967296", "i4294967297", "s18446744073709551617", "!0", "!17", "I99"])),
        4 => text.push(random.byte() & 0x7F),
        _ => {
            byte_of(random, b"iIs!cX", text);
            digits(random, text);
        }
    }
}

fn replacement(random: &mut Random, text: &mut Vec<u8>) {
    match random.below(4) {
        0 => push(text, random.pick(&["%%", "%0", "%1", "%%%%", "%1%0"])),
        _ => plain(random, text),
    }
}

fn wild_replacement(random: &mut Random, text: &mut Vec<u8>) {
    text.push(b'%');
    match random.below(6) {
        0 => push(text, random.pick(&grammar::CHARACTERS)),
        1 => push(text, random.pick(&["", "x", "/", ":", "\0", " "])),
        _ => text.push(b'0' + random.below(10) as u8),
    }
}

fn date(random: &mut Random, count: usize, has_faults: bool, text: &mut Vec<u8>) {
    push(text, random.pick(&["", "", "", "!", "*t", "!*t", "*", "!!"]));
    if count > 0 && random.one_in(16) {
        return;
    }
    pieces(random, count, has_faults, text, conversion, wild_conversion);
}

fn conversion(random: &mut Random, text: &mut Vec<u8>) {
    if random.one_in(3) {
        plain(random, text);
    } else {
        text.push(b'%');
        byte_of(random, b"aAbBcdHIjmMpSUwWxXyYzZ%", text);
    }
}

fn wild_conversion(random: &mut Random, text: &mut Vec<u8>) {
    text.push(b'%');
    match random.below(6) {
        0 => byte_of(random, b"CDeFgGhnrRtTuV", text),
        1 | 2 => {
            byte_of(random, b"EO#", text);
            byte_of(random, b"cCxXyYdeHImMSuUVwWjpabQE#%", text);
        }
        3 => push(text, random.pick(&grammar::CHARACTERS)),
        4 => text.push(random.byte() & 0x7F),
        _ => push(text, random.pick(&["", "E", "O", "#", "Eé", "OO", "##", "E%", "!", "*t"])),
    }
}
