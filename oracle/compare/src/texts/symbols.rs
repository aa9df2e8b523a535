//! What the bodies of each kind are made of: every byte that its check tests for, some that it does not, characters of two
//! and three bytes, and a byte that no text has.

use crate::kind::Kind;
use crate::texts::exhaustive::{Form, PERCENT, RAW, SET};

/// An alphabet of a kind, what is put around its texts, and how many symbols they have at most.
pub struct Alphabet {
    pub kind: Kind,
    pub name: &'static str,
    pub symbols: &'static [&'static [u8]],
    pub form: Form,
    pub short: usize,
    pub long: usize,
}

const fn raw(kind: Kind, name: &'static str, symbols: &'static [&'static [u8]], short: usize, long: usize) -> Alphabet {
    Alphabet { kind, name, symbols, form: RAW, short, long }
}

const fn behind_percent(
    kind: Kind,
    name: &'static str,
    symbols: &'static [&'static [u8]],
    short: usize,
    long: usize,
) -> Alphabet {
    Alphabet { kind, name, symbols, form: PERCENT, short, long }
}

pub const ALPHABETS: [Alphabet; 19] = [
    raw(Kind::Format, "all symbols", &FORMAT, 4, 5),
    raw(Kind::Format, "some symbols", &FORMAT_SOME, 4, 6),
    behind_percent(Kind::Format, "digits", &FORMAT_DIGITS, 4, 6),
    behind_percent(Kind::Format, "modifiers", &FORMAT_MODIFIERS, 6, 7),
    raw(Kind::Pattern, "all symbols", &PATTERN, 4, 5),
    raw(Kind::Pattern, "some symbols", &PATTERN_SOME, 4, 6),
    raw(Kind::Pattern, "digits", &PATTERN_DIGITS, 4, 6),
    raw(Kind::Pattern, "sets", &PATTERN_SETS, 6, 9),
    raw(Kind::Pattern, "captures", &PATTERN_CAPTURES, 6, 8),
    Alphabet { kind: Kind::Pattern, name: "ranges", symbols: &PATTERN_RANGES, form: SET, short: 5, long: 7 },
    raw(Kind::Pack, "all symbols", &PACK, 4, 5),
    raw(Kind::Pack, "sizes", &PACK_SIZES, 5, 6),
    raw(Kind::Packsize, "all symbols", &PACK, 4, 5),
    raw(Kind::Packsize, "sizes", &PACK_SIZES, 5, 6),
    raw(Kind::Replacement, "all symbols", &REPLACEMENT, 4, 5),
    raw(Kind::Replacement, "some symbols", &REPLACEMENT_SOME, 4, 6),
    raw(Kind::Date, "all symbols", &DATE, 3, 4),
    raw(Kind::Date, "some symbols", &DATE_SOME, 4, 6),
    behind_percent(Kind::Date, "all symbols", &DATE, 3, 4),
];

/// The widest alphabet of a kind.
pub const fn all_of(kind: Kind) -> &'static [&'static [u8]] {
    match kind {
        Kind::Format => &FORMAT,
        Kind::Pattern => &PATTERN,
        Kind::Pack | Kind::Packsize => &PACK,
        Kind::Replacement => &REPLACEMENT,
        Kind::Date => &DATE,
    }
}

/// Flags, digits, the conversions of every version, and letters that are none.
const FORMAT: [&[u8]; 32] = [
    b"%",
    b"*",
    b"-",
    b"+",
    b" ",
    b"#",
    b"0",
    b"1",
    b"9",
    b".",
    b"c",
    b"d",
    b"i",
    b"o",
    b"u",
    b"x",
    b"X",
    b"e",
    b"E",
    b"f",
    b"g",
    b"G",
    b"q",
    b"s",
    b"a",
    b"A",
    b"p",
    b"y",
    b"\0",
    "é".as_bytes(),
    "€".as_bytes(),
    b"\xFF",
];
/// One conversion of each way to take modifiers.
const FORMAT_SOME: [&[u8]; 18] =
    [b"%", b"*", b"-", b"+", b"#", b"0", b"7", b".", b"c", b"d", b"u", b"x", b"q", b"s", b"a", b"p", "é".as_bytes(), b"\xFF"];
const FORMAT_DIGITS: [&[u8]; 15] = [b"0", b"1", b"2", b"3", b"4", b"5", b"6", b"7", b"8", b"9", b"/", b":", b".", b"d", b"%"];
const FORMAT_MODIFIERS: [&[u8]; 8] = [b"-", b"#", b"0", b"1", b".", b"d", b"c", b"q"];

/// Items, digits, and the quantifiers and anchors that a check passes over.
const PATTERN: [&[u8]; 24] = [
    b"%",
    b"[",
    b"]",
    b"^",
    b"(",
    b")",
    b"0",
    b"1",
    b"2",
    b"9",
    b"b",
    b"f",
    b"a",
    b"*",
    b"+",
    b"?",
    b"-",
    b".",
    b"$",
    b"\0",
    "é".as_bytes(),
    "€".as_bytes(),
    "😀".as_bytes(),
    b"\xFF",
];
const PATTERN_SOME: [&[u8]; 16] =
    [b"%", b"[", b"]", b"^", b"(", b")", b"0", b"1", b"2", b"b", b"f", b"a", b"-", "é".as_bytes(), "€".as_bytes(), b"\xFF"];
const PATTERN_DIGITS: [&[u8]; 15] = [b"%", b"(", b")", b"0", b"1", b"2", b"3", b"4", b"5", b"6", b"7", b"8", b"9", b"/", b":"];
const PATTERN_SETS: [&[u8]; 6] = [b"[", b"]", b"^", b"%", b"%f", b"a"];
const PATTERN_RANGES: [&[u8]; 8] = [b"%", b"-", b"]", b"^", b"[", b"a", b"z", "é".as_bytes()];
const PATTERN_CAPTURES: [&[u8]; 7] = [b"(", b")", b"()", b"%1", b"%2", b"%3", b"a"];

/// Every option and every digit.
const PACK: [&[u8]; 38] = [
    b"b",
    b"B",
    b"h",
    b"H",
    b"l",
    b"L",
    b"j",
    b"J",
    b"T",
    b"f",
    b"d",
    b"n",
    b"i",
    b"I",
    b"s",
    b"z",
    b"c",
    b"x",
    b"X",
    b"!",
    b" ",
    b"<",
    b">",
    b"=",
    b"0",
    b"1",
    b"2",
    b"3",
    b"4",
    b"5",
    b"6",
    b"7",
    b"8",
    b"9",
    b"y",
    "é".as_bytes(),
    "€".as_bytes(),
    b"\xFF",
];
const PACK_SIZES: [&[u8]; 13] = [b"i", b"s", b"!", b"c", b"X", b"x", b"z", b"d", b"0", b"1", b"3", b"6", b"8"];

/// Every digit, and the bytes beside them.
const REPLACEMENT: [&[u8]; 18] = [
    b"%",
    b"0",
    b"1",
    b"2",
    b"3",
    b"4",
    b"5",
    b"6",
    b"7",
    b"8",
    b"9",
    b"/",
    b":",
    b"a",
    b"\0",
    "é".as_bytes(),
    "€".as_bytes(),
    b"\xFF",
];
const REPLACEMENT_SOME: [&[u8]; 9] = [b"%", b"0", b"1", b"2", b"4", b"9", b"a", "é".as_bytes(), b"\xFF"];

/// Every conversion, the two marks of the options and `#`, and `!` and `*t` at the front.
const DATE: [&[u8]; 46] = [
    b"%",
    b"!",
    b"*",
    b"E",
    b"O",
    b"#",
    b"a",
    b"A",
    b"b",
    b"B",
    b"c",
    b"d",
    b"H",
    b"I",
    b"j",
    b"m",
    b"M",
    b"p",
    b"S",
    b"U",
    b"w",
    b"W",
    b"x",
    b"X",
    b"y",
    b"Y",
    b"z",
    b"Z",
    b"C",
    b"D",
    b"e",
    b"F",
    b"g",
    b"G",
    b"h",
    b"n",
    b"r",
    b"R",
    b"t",
    b"T",
    b"u",
    b"V",
    b"Q",
    b"i",
    "é".as_bytes(),
    b"\xFF",
];
const DATE_SOME: [&[u8]; 18] =
    [b"%", b"!", b"*", b"t", b"E", b"O", b"#", b"c", b"C", b"d", b"H", b"V", b"y", b"Y", b"Z", b"Q", "é".as_bytes(), b"\xFF"];

/// For literals: quotes, escapes that are skipped and others, and a little of every kind.
pub const LITERAL: [&[u8]; 20] = [
    b"\"",
    b"'",
    b"\\",
    b"x",
    b"u",
    b"0",
    b"9",
    b"%",
    b"[",
    b"]",
    b"(",
    b")",
    b"d",
    b"i",
    b"3",
    b"!",
    b"\n",
    "é".as_bytes(),
    "😀".as_bytes(),
    b"\xFF",
];

/// For literals with a set: ranges, escapes of the set and of the literal, and the quote.
pub const LITERAL_RANGES: [&[u8]; 9] = [b"%", b"-", b"]", b"a", b"z", b"\\", b"n", b"\"", "é".as_bytes()];
