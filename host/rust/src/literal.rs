//! The check of a literal as it stands in a source, with its quotes.

use std::error::Error;
use std::fmt;

use crate::kind::Kind;
use crate::raw::{self, Literal};
use crate::refusal::Refusal;
use crate::version::Version;

/// What became of a literal that is not refused.
#[derive(Debug, Clone, Copy, PartialEq, Eq, Hash)]
#[non_exhaustive]
pub enum LiteralCheck {
    /// Accepted, with the count of the kind's check: arguments, captures or values; 0 for a replacement and a date.
    Accepted(usize),
    /// Not checked: not in two equal quotes, or with an escape `\0` to `\9`, `\x` or `\u`.
    Skipped,
}

/// A place in a source. An offset that does not fit is `u32::MAX`.
#[derive(Debug, Clone, Copy, PartialEq, Eq, Hash)]
pub struct Span {
    /// The offset of the character at fault.
    pub start: u32,
    /// The offset after it; one after `start` where the fault is at the body's end or inside a character.
    pub end: u32,
}

/// Why a literal is refused.
#[derive(Debug, Clone, Copy, PartialEq, Eq, Hash)]
#[non_exhaustive]
pub struct LiteralError {
    /// The refusal. Its offset counts from the body's first byte; that of [`Refusal::NotUtf8`] from the quote.
    pub refusal: Refusal,
    /// The source's place of the fault; [`Refusal::NotUtf8`] has none.
    pub span: Option<Span>,
}

impl fmt::Display for LiteralError {
    fn fmt(&self, f: &mut fmt::Formatter<'_>) -> fmt::Result {
        self.refusal.fmt(f)
    }
}

impl Error for LiteralError {}

impl Literal {
    /// Accepted or skipped, or the refusal with its span.
    ///
    /// # Errors
    ///
    /// Whatever the number is, if it is not 0.
    pub fn result(self) -> Result<LiteralCheck, LiteralError> {
        if self.skipped {
            return Ok(LiteralCheck::Skipped);
        }
        if self.number == raw::ACCEPTED {
            return Ok(LiteralCheck::Accepted(self.count));
        }
        Err(LiteralError {
            refusal: Refusal::new(self.number, self.offset, self.first, self.second),
            span: self.spanned.then_some(Span { start: self.start, end: self.end }),
        })
    }
}

/// Checks a literal with its quotes; `start` is the offset of its first byte in the source. `captures` is looked at only for a
/// [`Kind::Replacement`], as in [`crate::check_replacement`].
///
/// It is no lexer: a quote or a line break between the quotes is taken. An escape that is not skipped is read as the two bytes that
/// are written, not as the one that Lua reads; so a pattern with a backslash is not tested for [`Refusal::ReversedRange`].
///
/// ```
/// use luck::{Kind, LiteralCheck, Span, Version};
///
/// let check = |text| luck::check_literal(Kind::Format, Version::Lua54, None, 100, text);
/// assert_eq!(check(b"'%d%s'"), Ok(LiteralCheck::Accepted(2)));
/// assert_eq!(check(b"[[%d]]"), Ok(LiteralCheck::Skipped));
/// let error = check(b"'ab%y'").unwrap_err();
/// assert_eq!(error.to_string(), "unknown specifier `%y` at offset 3");
/// assert_eq!(error.span, Some(Span { start: 104, end: 105 }));
/// ```
///
/// # Errors
///
/// The refusal that the kind's check gives for the body, with its span; or [`Refusal::NotUtf8`] without one.
pub fn check_literal(
    kind: Kind,
    version: Version,
    captures: Option<usize>,
    start: u32,
    text: &[u8],
) -> Result<LiteralCheck, LiteralError> {
    let (known, count) = (captures.is_some(), captures.unwrap_or(0));
    // SAFETY: the slice is live for the call, and the function reads no byte outside it.
    let answer =
        unsafe { raw::luck_check_literal(kind.letter(), version.number(), known, count, start, text.as_ptr(), text.len()) };
    answer.result()
}
