//! Asks the library and the reference the same and reports where they differ.

mod checks;
mod known;
pub mod left_out;
pub mod report;

use std::borrow::Cow;
use std::str;

use luck_token::LuaVersion;

use crate::comparison::report::{Case, Check, Report};
use crate::reference::{self, NO_VERSIONS, VERSIONS, Value};
use crate::texts::random::Random;
use library::token;
use texts::output::Output;

/// Bytes of room behind a value, to see that they stay as they were.
const SPARE_ROOM: usize = 9;

pub struct Comparison {
    report: Report,
    output: Output,
    /// Counts the checks of literals.
    turn: usize,
}

impl Comparison {
    pub(crate) fn new() -> Self {
        Self { report: Report::default(), output: Output::default(), turn: 0 }
    }

    pub const fn report(&self) -> &Report {
        &self.report
    }

    /// All that takes a text, in every version.
    pub fn text(&mut self, text: &[u8]) {
        self.utf8_text(text);
        self.line_break(text);
        if let Ok(text) = str::from_utf8(text) {
            self.short_body(text);
        }
        for version in VERSIONS.chain(NO_VERSIONS) {
            self.decode(version, text);
        }
    }

    /// The UTF-8 test, and the character at each place, at the end, just past it and far past it.
    pub fn utf8_text(&mut self, text: &[u8]) {
        self.plain(Check::Utf8, None, text, token::utf8(text), reference::utf8(text));
        for at in (0..=text.len() + 1).chain([usize::MAX]) {
            self.plain(Check::CharAt, None, text, token::char_at(text, at), reference::char_at(text, at));
        }
    }

    fn line_break(&mut self, text: &[u8]) {
        for (number, version) in VERSIONS.zip(LuaVersion::ALL) {
            let left = token::strip_line_break(number, text);
            self.plain(Check::LineBreak, Some(number), text, left, reference::strip_line_break(version, text));
        }
    }

    fn short_body(&mut self, text: &str) {
        let body = token::short_string_body(text.as_bytes());
        self.plain(Check::ShortBody, None, text.as_bytes(), body, reference::short_string_body(text));
    }

    /// With room to spare, with just enough, with one byte too few, and with none. Wide literals are counted apart.
    fn decode(&mut self, version: u32, text: &[u8]) {
        let by_luck = reference::by_luck(version, text);
        let (check, value) = match reference::wide_value(version, text, &by_luck) {
            Some(wide) => (Check::DecodeWide, Ok(Cow::Owned(wide))),
            None => (Check::Decode, by_luck),
        };
        match value.as_ref().map(|bytes| bytes.len()) {
            Ok(length) => {
                self.decode_into(check, version, text, &value, length + SPARE_ROOM);
                self.decode_into(check, version, text, &value, length);
                if length > 0 {
                    self.decode_into(check, version, text, &value, length - 1);
                }
                if length > 1 {
                    self.decode_into(check, version, text, &value, 0);
                }
            }
            Err(_) => {
                self.decode_into(check, version, text, &value, text.len());
                self.decode_into(check, version, text, &value, 0);
            }
        }
    }

    fn decode_into(&mut self, check: Check, version: u32, text: &[u8], value: &Value<'_>, room: usize) {
        let answer = library::decode_string(version, text, self.output.lend(room));
        let (expected, written) = reference::decoded(value, room);
        let is_same = answer == expected && self.output.holds_only(written);
        let output = &self.output;
        self.report.add(Case { check, version: Some(version), text }, is_same, || {
            format!(
                "room {room}: library {answer:?} and `{}`, wanted {expected:?} and `{}`",
                output.lent().escape_ascii(),
                written.escape_ascii()
            )
        });
    }

    /// The rules of every version, and that luck's rules which share a row agree.
    pub fn rules(&mut self) {
        for number in VERSIONS.chain(NO_VERSIONS) {
            self.plain(Check::Rules, Some(number), b"", token::rules(number), reference::rules(number));
            let shared = reference::lua_version(number).map(reference::shared_rules);
            for (name, row, rule) in shared.into_iter().flatten() {
                self.plain(Check::Rules, Some(number), name.as_bytes(), row, rule);
            }
        }
    }

    pub fn whitespace(&mut self) {
        for byte in 0..=u8::MAX {
            let is_whitespace = u8::from(luck_token::is_lua_whitespace(byte));
            self.plain(Check::Whitespace, None, &[byte], token::is_lua_whitespace(byte), is_whitespace);
        }
    }

    /// Spans at the edges of `u32` and at random places.
    pub fn spans(&mut self, random: &mut Random, count: usize) {
        const U32: usize = u32::MAX as usize;
        const INDICES: [usize; 9] = [0, 1, U32 / 2, U32 - 1, U32, U32 + 1, U32 + 2, usize::MAX - 1, usize::MAX];
        const OFFSETS: [u32; 6] = [0, 1, u32::MAX / 2, u32::MAX / 2 + 1, u32::MAX - 1, u32::MAX];
        for start in INDICES {
            for end in INDICES {
                for offset in OFFSETS {
                    self.span(start, end, offset);
                }
            }
        }
        for _ in 0..count {
            let [start, end] = [0; 2].map(|_| any_width(random) as usize);
            self.span(start, end, any_width(random) as u32);
        }
    }

    fn span(&mut self, start: usize, end: usize, offset: u32) {
        let [answer, expected] = [token::span(start, end, offset), reference::span(start, end, offset)];
        self.report.add(Case { check: Check::Span, version: None, text: b"" }, answer == expected, || {
            format!("{start} to {end}, shifted by {offset}: library {answer:?}, luck {expected:?}")
        });
    }

    fn plain<T: PartialEq + std::fmt::Debug>(&mut self, check: Check, version: Option<u32>, text: &[u8], answer: T, expected: T) {
        self.report.add(Case { check, version, text }, answer == expected, || format!("library {answer:?}, luck {expected:?}"));
    }
}

/// A number of random width: small ones and those about 2^32 are as frequent as large ones.
fn any_width(random: &mut Random) -> u64 {
    let width = random.below(64);
    random.next() >> width
}
