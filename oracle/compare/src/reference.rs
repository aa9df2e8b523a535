//! What is right: luck's Rust, with the port's own refusals 25, 23 and 26 around it.

pub mod checks;
pub mod reversed;
pub mod wide;

use std::borrow::Cow;
use std::str;

use luck_token::LuaVersion;

use library::Decoded;
use library::token::{Body, Char, RULES, Row, Span};

/// The versions' numbers: 1 to 5 are Lua 5.1 to 5.5, 6 is Luau.
pub const VERSIONS: std::ops::RangeInclusive<u32> = 1..=6;

/// Numbers beside and far from the versions'.
pub const NO_VERSIONS: [u32; 3] = [0, 7, u32::MAX];

#[derive(Debug, Clone, Copy, PartialEq, Eq)]
pub struct Refusal {
    number: u32,
    offset: usize,
}

const UNKNOWN_VERSION: Refusal = Refusal { number: 25, offset: 0 };
const UNDECODABLE: Refusal = Refusal { number: 24, offset: 0 };
const OUTPUT_TOO_SHORT: Refusal = Refusal { number: 26, offset: 0 };

const fn not_utf8(offset: usize) -> Refusal {
    Refusal { number: 23, offset }
}

/// A literal's value before the output's room is looked at.
pub type Value<'text> = Result<Cow<'text, [u8]>, Refusal>;

pub fn lua_version(number: u32) -> Option<LuaVersion> {
    LuaVersion::ALL.get(usize::try_from(number).ok()?.checked_sub(1)?).copied()
}

/// luck's value, but for wide literals.
pub fn value(version: u32, text: &[u8]) -> Value<'_> {
    let value = by_luck(version, text);
    match wide_value(version, text, &value) {
        Some(wide) => Ok(Cow::Owned(wide)),
        None => value,
    }
}

/// A wide literal's value. `by_luck` is luck's, which stands for all other literals.
pub fn wide_value(version: u32, text: &[u8], by_luck: &Value<'_>) -> Option<Vec<u8>> {
    if *by_luck == Err(UNDECODABLE) { wide::value(version, text) } else { None }
}

/// The refusals in their order: 25, 23, 24.
pub fn by_luck(version: u32, text: &[u8]) -> Value<'_> {
    let version = lua_version(version).ok_or(UNKNOWN_VERSION)?;
    let raw = str::from_utf8(text).map_err(|error| not_utf8(error.valid_up_to()))?;
    luck_token::decode_string(raw, version).ok_or(UNDECODABLE)
}

/// The answer for an output of this room, and the bytes that it holds then.
pub fn decoded<'value>(value: &'value Value<'_>, room: usize) -> (Decoded, &'value [u8]) {
    match value {
        Ok(bytes) if bytes.len() <= room => (Decoded { number: 0, offset: 0, written: bytes.len() }, bytes),
        Ok(_) => (refused(OUTPUT_TOO_SHORT), &[]),
        Err(refusal) => (refused(*refusal), &[]),
    }
}

const fn refused(refusal: Refusal) -> Decoded {
    Decoded { number: refusal.number, offset: refusal.offset, written: 0 }
}

/// The length of a well-formed text, else the place of the first ill-formed sequence.
pub fn utf8(text: &[u8]) -> usize {
    str::from_utf8(text).map_or_else(|error| error.valid_up_to(), str::len)
}

/// The character of luck's `Cursor::peek_char` and the width of its `literal_error`. luck has both on a `str` only; on
/// other bytes the same is asked of the sequence that stands at the place.
pub fn char_at(text: &[u8], at: usize) -> Char {
    const LONGEST: usize = 4;
    let rest = text.get(at..).unwrap_or_default();
    let window = rest.get(..LONGEST).unwrap_or(rest);
    let character = window.utf8_chunks().next().and_then(|chunk| chunk.valid().chars().next());
    Char { code: character.unwrap_or(char::REPLACEMENT_CHARACTER).into(), width: character.map_or(1, char::len_utf8) }
}

/// How many bytes are left without the line break at the front.
pub fn strip_line_break(version: LuaVersion, text: &[u8]) -> usize {
    luck_token::strip_line_break(text, version).unwrap_or(text).len()
}

pub fn short_string_body(text: &str) -> Body {
    match luck_token::short_string_body(text) {
        Some(body) => Body { is_short: 1, start: 1, end: 1 + body.len() },
        None => Body { is_short: 0, start: 0, end: 0 },
    }
}

pub fn span(start: usize, end: usize, offset: u32) -> Span {
    let span = luck_token::Span::from_indices(start, end).shifted(offset);
    Span { start: span.start, end: span.end }
}

/// A number that is no version has no rule.
pub fn rules(version: u32) -> Row {
    let has = lua_version(version).map_or([false; RULES.len()], |version| {
        [
            version.has_strict_escapes(),
            version.has_hex_escape(),
            version.has_unicode_escape(),
            version.has_lfcr_line_break(),
            version.has_extended_unicode_escape(),
            version.has_unicode_escape_digit_limit(),
            version.has_hex_float_format(),
            version.has_checked_format_modifiers(),
            version.has_star_format(),
            version.has_strict_gsub_replacement(),
            version.has_date_format_options(),
        ]
    });
    Row { has: has.map(u8::from) }
}

/// Rules of luck that share a row with another one, and so must be equal to it: the rule's name, the row's value and luck's.
pub fn shared_rules(version: LuaVersion) -> [(&'static str, bool, bool); 3] {
    [
        ("has_whitespace_escape", version.has_hex_escape(), version.has_whitespace_escape()),
        ("has_pointer_format", version.has_checked_format_modifiers(), version.has_pointer_format()),
        ("has_checked_date_format", version.has_strict_gsub_replacement(), version.has_checked_date_format()),
    ]
}
