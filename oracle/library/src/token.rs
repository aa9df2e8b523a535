//! The functions of `luck_token_exports`: what the token crate has in common with luck's.

/// The version table's rules, in the order of its row.
pub const RULES: [&str; 11] = [
    "strict_escapes",
    "hex_escape",
    "unicode_escape",
    "lfcr_line_break",
    "extended_unicode_escape",
    "unicode_escape_digit_limit",
    "hex_float_format",
    "checked_format_modifiers",
    "star_format",
    "strict_gsub_replacement",
    "date_format_options",
];

/// Whether the version has each of [`RULES`].
#[repr(C)]
#[derive(Debug, Clone, Copy, PartialEq, Eq)]
pub struct Row {
    pub has: [u8; RULES.len()],
}

#[repr(C)]
#[derive(Debug, Clone, Copy, PartialEq, Eq)]
pub struct Char {
    pub code: u32,
    pub width: usize,
}

#[repr(C)]
#[derive(Debug, Clone, Copy, PartialEq, Eq)]
pub struct Body {
    pub is_short: u8,
    pub start: usize,
    pub end: usize,
}

#[repr(C)]
#[derive(Debug, Clone, Copy, PartialEq, Eq)]
pub struct Span {
    pub start: u32,
    pub end: u32,
}

unsafe extern "C" {
    safe fn luck_token_rules(version: u32) -> Row;
    fn luck_token_utf8(text: *const u8, len: usize) -> usize;
    fn luck_token_char_at(text: *const u8, len: usize, at: usize) -> Char;
    safe fn luck_token_is_lua_whitespace(byte: u8) -> u8;
    fn luck_token_strip_line_break(version: u32, text: *const u8, len: usize) -> usize;
    fn luck_token_short_string_body(text: *const u8, len: usize) -> Body;
    safe fn luck_token_span(start: usize, end: usize, offset: u32) -> Span;
}

// SAFETY, of every call below: the slices are whole and live, which is all that the library asks of its callers.

pub fn rules(version: u32) -> Row {
    luck_token_rules(version)
}

#[inline]
pub fn utf8(text: &[u8]) -> usize {
    unsafe { luck_token_utf8(text.as_ptr(), text.len()) }
}

pub fn char_at(text: &[u8], at: usize) -> Char {
    unsafe { luck_token_char_at(text.as_ptr(), text.len(), at) }
}

pub fn is_lua_whitespace(byte: u8) -> u8 {
    luck_token_is_lua_whitespace(byte)
}

pub fn strip_line_break(version: u32, text: &[u8]) -> usize {
    unsafe { luck_token_strip_line_break(version, text.as_ptr(), text.len()) }
}

pub fn short_string_body(text: &[u8]) -> Body {
    unsafe { luck_token_short_string_body(text.as_ptr(), text.len()) }
}

pub fn span(start: usize, end: usize, offset: u32) -> Span {
    luck_token_span(start, end, offset)
}
