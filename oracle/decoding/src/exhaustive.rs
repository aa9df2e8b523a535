//! Every text of some kind, shortest first.

use texts::exhaustive::Form;

/// What a literal is made of and what breaks one: quotes, escapes and their parts, the digits about the limits of a code
/// point, line breaks, brackets, a character of two bytes, and a byte that no text has.
pub const HOSTILE: [&[u8]; 24] = [
    b"\\",
    b"u",
    b"{",
    b"}",
    b"0",
    b"1",
    b"7",
    b"8",
    b"F",
    b"f",
    b"D",
    b"x",
    b"z",
    b"n",
    b"\"",
    b"'",
    b"\r",
    b"\n",
    b" ",
    b"[",
    b"]",
    b"=",
    "é".as_bytes(),
    b"\xFF",
];

/// For `\u{}`: digits by themselves, and enough of them at once to pass every limit.
pub const CODE_POINTS: [&[u8]; 11] = [b"\\u{", b"}", b"0", b"1", b"7", b"8", b"d", b"F", b"000", b"FFF", b"\\"];

/// For long brackets of several levels.
pub const BRACKETS: [&[u8]; 6] = [b"[", b"]", b"=", b"\n", b"\r", b"a"];

pub const RAW: Form = Form::new("by themselves", b"", b"");
pub const QUOTED: Form = Form::new("in quotes", b"\"", b"\"");
pub const LONG: Form = Form::new("in [[ ]]", b"[[", b"]]");
pub const LONG_LEVEL_1: Form = Form::new("in [=[ ]=]", b"[=[", b"]=]");

/// `"\` and any two bytes, `"\x` and any two bytes, and every `\ddd`, with a digit behind it too.
pub fn escapes(visit: &mut dyn FnMut(&[u8])) {
    for prefix in [b"\"\\".as_slice(), b"\"\\x"] {
        for number in 0..=u16::MAX {
            visit(&[prefix, &number.to_be_bytes(), b"\""].concat());
        }
    }
    for number in 0..1000 {
        for literal in [format!("'\\{number}'"), format!("'\\{number:02}'"), format!("'\\{number:03}0'")] {
            visit(literal.as_bytes());
        }
    }
}
