//! The C functions, structs and numbers of `include/luck.h`, as they are.
//!
//! A version, a kind letter and an answer's number are plain numbers here: a version that is not 1 to 6 is answered with 25, and a
//! letter that is none of the six with 30.
//!
//! Every function asks the same of its callers: a pointer points to as many readable bytes as the count after it says, at most
//! `isize::MAX`; an output points to `room` writable bytes and overlaps none of the texts. With a count of 0 the pointer is not read
//! and may be null.
//!
//! ```
//! use luck::raw;
//!
//! let body = b"(%d+";
//! // SAFETY: the pointer and the count are those of a live slice.
//! let answer = unsafe { raw::luck_check_pattern(7, body.as_ptr(), body.len()) };
//! assert_eq!(answer.number, raw::UNKNOWN_VERSION);
//! ```

/// Accepted, decoded, skipped or done: no refusal.
pub const ACCEPTED: u32 = 0;
/// The text ends after a `%` or its modifiers.
pub const TRUNCATED_SPECIFIER: u32 = 1;
/// No conversion of this version.
pub const UNKNOWN_SPECIFIER: u32 = 2;
/// The sixth flag of a specifier.
pub const BAD_FLAG: u32 = 3;
/// A width of more than two digits.
pub const BAD_WIDTH: u32 = 4;
/// A precision of more than two digits.
pub const BAD_PRECISION: u32 = 5;
/// A modifier that the conversion does not take.
pub const BAD_MODIFIER: u32 = 6;
/// 21 or more modifiers.
pub const LONG_SPECIFIER: u32 = 7;
/// A set without its `]`.
pub const UNTERMINATED_SET: u32 = 8;
/// A `[]` or `[^]` that ends the text.
pub const EMPTY_SET: u32 = 9;
/// A `%f` without a set after it.
pub const BAD_ESCAPE: u32 = 10;
/// A `)` without an open capture, or a `(` that is never closed.
pub const UNMATCHED_CAPTURE: u32 = 11;
/// The 33rd capture.
pub const TOO_MANY_CAPTURES: u32 = 12;
/// `%0`, or `%1` to `%9` of a capture that is not closed.
pub const BAD_BACK_REFERENCE: u32 = 13;
/// No option, or one that `X` can't align to.
pub const INVALID_PACK_OPTION: u32 = 14;
/// A `c` without a size, or an `X` at the text's end.
pub const TRUNCATED_PACK_SIZE: u32 = 15;
/// A size of `i`, `I`, `s` or `!` that is not 1 to 16.
pub const PACK_SIZE_LIMITS: u32 = 16;
/// An alignment that is no power of 2.
pub const BAD_PACK_ALIGNMENT: u32 = 17;
/// An `s` or `z` in a packsize format.
pub const VARIABLE_LENGTH: u32 = 18;
/// The text ends in a single `%`.
pub const LONE_PERCENT: u32 = 19;
/// A replacement's `%` before something other than a digit or `%`.
pub const BAD_REPLACEMENT: u32 = 20;
/// A replacement's digit above the pattern's captures.
pub const CAPTURE_INDEX: u32 = 21;
/// A date's `%` before something other than a conversion of this version.
pub const BAD_DATE_SPECIFIER: u32 = 22;
/// Not UTF-8.
pub const NOT_UTF8: u32 = 23;
/// Decoding: no literal, or an escape that is malformed or that is not read in this version.
pub const UNDECODABLE: u32 = 24;
/// The version is not 1 to 6.
pub const UNKNOWN_VERSION: u32 = 25;
/// The value or the result is longer than the output.
pub const OUTPUT_TOO_SHORT: u32 = 26;
/// Trial: a step was due and the budget was spent.
pub const STEPS_SPENT: u32 = 27;
/// Trial: the 201st level.
pub const TOO_DEEP: u32 = 28;
/// Trial: Lua raises an error, of the kind that the answer has.
pub const RAISED: u32 = 29;
/// The kind letter is none of the six.
pub const UNKNOWN_KIND: u32 = 30;
/// A range in a set whose left byte is greater than its right, as in `[z-a]`: it holds no byte. Lua takes it.
pub const REVERSED_RANGE: u32 = 39;

/// What a check of a body answers.
#[repr(C)]
#[derive(Debug, Clone, Copy, PartialEq, Eq)]
pub struct Answer {
    /// 0: accepted; else the refusal.
    pub number: u32,
    /// The character that the refusal carries, as a code point; 0 for none, and for a zero byte.
    pub first: u32,
    /// The second one: the conversion of [`BAD_MODIFIER`], else 0.
    pub second: u32,
    /// The byte of the body that is at fault; 0 where accepted or without a place.
    pub offset: usize,
    /// Accepted: the count that the function speaks of; else 0.
    pub count: usize,
}

/// What the check of a literal answers.
#[repr(C)]
#[derive(Debug, Clone, Copy, PartialEq, Eq)]
pub struct Literal {
    /// 0: accepted or skipped; else the refusal.
    pub number: u32,
    /// As in [`Answer`].
    pub first: u32,
    /// As in [`Answer`].
    pub second: u32,
    /// Not checked; all else is 0 and false.
    pub skipped: bool,
    /// `start` and `end` hold the span of a fault in the body.
    pub spanned: bool,
    /// The source's offset of the character at fault; `u32::MAX` where it does not fit.
    pub start: u32,
    /// The offset after that character, or one after `start` where the fault is inside a character; likewise.
    pub end: u32,
    /// The fault's place in the body; for [`NOT_UTF8`] in the text, its quote included.
    pub offset: usize,
    /// As in [`Answer`], by the kind.
    pub count: usize,
}

/// What decoding answers.
#[repr(C)]
#[derive(Debug, Clone, Copy, PartialEq, Eq)]
pub struct Decoded {
    /// 0: decoded; else the refusal.
    pub number: u32,
    /// For [`NOT_UTF8`] its place in the text; else 0.
    pub offset: usize,
    /// Decoded: the length of the value, which need not be UTF-8; else 0.
    pub written: usize,
}

/// What a trial of gsub answers.
#[repr(C)]
#[derive(Debug, Clone, Copy, PartialEq, Eq)]
pub struct Trial {
    /// 0: done; else 25 to 29.
    pub number: u32,
    /// For [`RAISED`] from 1 to 10; else 0.
    pub kind: u32,
    /// The bytes written to the front of the output, in every answer.
    pub written: usize,
    /// The matches that were replaced, the one at which it stopped included.
    pub replacements: usize,
    /// The steps taken, at most the budget.
    pub steps: u32,
}

unsafe extern "C" {
    /// A format of `string.format`; counts the arguments that its specifiers take.
    pub fn luck_check_format(version: u32, body: *const u8, len: usize) -> Answer;

    /// A pattern of `string.find`, `match`, `gmatch` and `gsub`; counts its captures.
    pub fn luck_check_pattern(version: u32, body: *const u8, len: usize) -> Answer;

    /// A format of `string.pack` and `unpack`; counts its values.
    pub fn luck_check_pack(version: u32, body: *const u8, len: usize) -> Answer;

    /// A format of `string.packsize`; counts its values.
    pub fn luck_check_packsize(version: u32, body: *const u8, len: usize) -> Answer;

    /// A format of `os.date`; counts nothing.
    pub fn luck_check_date(version: u32, body: *const u8, len: usize) -> Answer;

    /// A replacement of `string.gsub`, with the pattern's count of captures where `known`; counts nothing.
    pub fn luck_check_replacement(version: u32, known: bool, captures: usize, body: *const u8, len: usize) -> Answer;

    /// A literal as it stands in a source at the offset `start`, with its quotes.
    pub fn luck_check_literal(
        kind: u8,
        version: u32,
        known: bool,
        captures: usize,
        start: u32,
        text: *const u8,
        len: usize,
    ) -> Literal;

    /// The bytes that a literal stands for, into `output`.
    pub fn luck_decode_string(version: u32, text: *const u8, len: usize, output: *mut u8, room: usize) -> Decoded;

    /// `string.gsub(subject, pattern, replacement)`, into `output`.
    pub fn luck_gsub_trial(
        version: u32,
        pattern: *const u8,
        pattern_len: usize,
        replacement: *const u8,
        replacement_len: usize,
        subject: *const u8,
        subject_len: usize,
        budget: u32,
        output: *mut u8,
        room: usize,
    ) -> Trial;
}
