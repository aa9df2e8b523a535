//! Every text of some kind, shortest first.

pub use ::texts::exhaustive::{Form, texts};

use crate::texts::random::Random;

/// What a literal is made of and what breaks one: quotes, escapes and their parts, digits, line breaks, brackets,
/// characters of two and three bytes, and a byte that no text has.
pub const HOSTILE: [&[u8]; 22] = [
    b"\"",
    b"'",
    b"\\",
    b"x",
    b"u",
    b"{",
    b"}",
    b"0",
    b"9",
    b"A",
    b"f",
    b"z",
    b"n",
    b"\r",
    b"\n",
    b" ",
    b"[",
    b"]",
    b"=",
    "é".as_bytes(),
    "€".as_bytes(),
    b"\xFF",
];

/// For long brackets of several levels.
pub const BRACKETS: [&[u8]; 6] = [b"[", b"]", b"=", b"\n", b"\r", b"a"];

/// The inside of `\u{}`, with the digits about the limits of a value.
pub const CODE_POINTS: [&[u8]; 8] = [b"\\u{", b"}", b"0", b"1", b"7", b"8", b"d", b"F"];

/// The ends of each range in the grammar of RFC 3629, and their neighbours.
pub const UTF8_EDGES: [&[u8]; 25] = [
    b"\x00", b"A", b"\x7F", b"\x80", b"\x8F", b"\x90", b"\x9F", b"\xA0", b"\xBF", b"\xC0", b"\xC1", b"\xC2", b"\xDF", b"\xE0",
    b"\xE1", b"\xEC", b"\xED", b"\xEE", b"\xEF", b"\xF0", b"\xF1", b"\xF3", b"\xF4", b"\xF5", b"\xFF",
];

pub const RAW: Form = Form::new("raw", b"", b"");
pub const QUOTED: Form = Form::new("quoted", b"\"", b"\"");
pub const SET: Form = Form::new("in [ ]", b"[", b"]");
pub const QUOTED_SET: Form = Form::new("in \"[ ]\"", b"\"[", b"]\"");
pub const PERCENT: Form = Form::new("behind %", b"%", b"");
pub const LONG: Form = Form::new("in [[ ]]", b"[[", b"]]");
pub const LONG_LEVEL_1: Form = Form::new("in [=[ ]=]", b"[=[", b"]=]");

/// Every text of three bytes.
pub fn three_bytes(visit: &mut dyn FnMut(&[u8])) {
    for number in 0..1u32 << 24 {
        visit(&number.to_be_bytes()[1..]);
    }
}

/// `"\` and any two bytes, then `"\x` and any two bytes.
pub fn two_bytes_escaped(visit: &mut dyn FnMut(&[u8])) {
    for prefix in [b"\"\\".as_slice(), b"\"\\x"] {
        for number in 0..=u16::MAX {
            visit(&[prefix, &number.to_be_bytes(), b"\""].concat());
        }
    }
}

/// `\ddd` for every number of up to three digits, with and without zeros in front, and with a digit behind.
pub fn decimal_escapes(visit: &mut dyn FnMut(&[u8])) {
    for number in 0..1000 {
        for literal in [format!("\"\\{number}\""), format!("\"\\{number:02}\""), format!("\"\\{number:03}0\"")] {
            visit(literal.as_bytes());
        }
    }
}

/// `\u{XXX}` for every code point, or one in `step`, and some numbers past the last one.
pub fn code_point_escapes(step: usize, visit: &mut dyn FnMut(&[u8])) {
    for number in (0..=0x11_0100).step_by(step) {
        visit(format!("\"\\u{{{number:X}}}\"").as_bytes());
    }
}

/// `\u{XXX}` for random numbers of up to 36 bits with up to 20 zeros in front.
pub fn padded_code_points(random: &mut Random, count: usize, visit: &mut dyn FnMut(&[u8])) {
    for _ in 0..count {
        let width = 28 + random.below(36);
        let number = random.next() >> width;
        let digits = random.below(21);
        visit(format!("\"\\u{{{number:0digits$x}}}\"").as_bytes());
    }
}
