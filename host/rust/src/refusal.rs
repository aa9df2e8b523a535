//! Why a text is refused.

use std::error::Error;
use std::fmt;

use crate::raw;

/// Why a text is refused. Each `offset` is a byte of the text that was checked.
#[derive(Debug, Clone, Copy, PartialEq, Eq, Hash)]
#[non_exhaustive]
pub enum Refusal {
    /// 1: the text ends after a `%` or its modifiers; in a pattern also inside `%b`.
    TruncatedSpecifier {
        /// The `%`.
        offset: usize,
    },
    /// 2: no conversion of this version.
    UnknownSpecifier {
        /// The character.
        offset: usize,
        /// What stands there.
        character: char,
    },
    /// 3: more flags in one specifier than Lua allows.
    BadFlag {
        /// The sixth flag.
        offset: usize,
        /// What stands there.
        character: char,
    },
    /// 4: a width of more than two digits.
    BadWidth {
        /// Its first digit.
        offset: usize,
    },
    /// 5: a precision of more than two digits.
    BadPrecision {
        /// Its first digit.
        offset: usize,
    },
    /// 6: a flag, width or precision that the conversion does not take.
    BadModifier {
        /// The modifier.
        offset: usize,
        /// What stands there.
        modifier: char,
        /// The conversion that does not take it.
        conversion: char,
    },
    /// 7: 21 or more modifiers.
    LongSpecifier {
        /// The first modifier.
        offset: usize,
    },
    /// 8: a set without its `]`.
    UnterminatedSet {
        /// The `[`.
        offset: usize,
    },
    /// 9: a `[]` or `[^]` that ends the text: its `]` is a member, so nothing closes the set.
    EmptySet {
        /// The `[`.
        offset: usize,
    },
    /// 10: a `%f` without a set after it.
    BadEscape {
        /// The `%`.
        offset: usize,
        /// The `f`.
        character: char,
    },
    /// 11: a `)` without an open capture, or a `(` that is never closed.
    UnmatchedCapture {
        /// The `)`, or the text's end.
        offset: usize,
    },
    /// 12: the 33rd capture.
    TooManyCaptures {
        /// Its `(`.
        offset: usize,
    },
    /// 13: `%0`, or `%1` to `%9` of a capture that was not seen or is still open.
    BadBackReference {
        /// The digit.
        offset: usize,
    },
    /// 14: no pack option, or one that `X` can't align to.
    InvalidPackOption {
        /// The character.
        offset: usize,
        /// What stands there.
        character: char,
    },
    /// 15: a `c` without a size, or an `X` at the text's end.
    TruncatedPackSize {
        /// The place after it.
        offset: usize,
    },
    /// 16: a size of `i`, `I`, `s` or `!` that is not 1 to 16.
    PackSizeOutOfLimits {
        /// Its first digit.
        offset: usize,
    },
    /// 17: an alignment that is no power of 2.
    BadPackAlignment {
        /// The option.
        offset: usize,
    },
    /// 18: an `s` or `z` in a packsize format.
    VariableLengthPackOption {
        /// The option.
        offset: usize,
        /// What stands there.
        character: char,
    },
    /// 19: a replacement or a date that ends in a single `%`.
    LonePercent {
        /// The `%`.
        offset: usize,
    },
    /// 20: a replacement's `%` before something other than a digit or `%`.
    BadReplacementEscape {
        /// What stands after the `%`.
        offset: usize,
    },
    /// 21: a replacement's digit above the pattern's captures.
    CaptureIndexOutOfRange {
        /// The digit.
        offset: usize,
    },
    /// 22: a date's `%` before something other than a conversion of this version.
    BadDateSpecifier {
        /// What stands after the `%`.
        offset: usize,
    },
    /// 23: not UTF-8.
    NotUtf8 {
        /// The first byte of the first ill-formed sequence; in the check of a literal the quote is counted too.
        offset: usize,
    },
    /// 39: a range in a set whose left byte is greater than its right, as in `[z-a]`: it holds no byte, so nothing matches it. Lua
    /// takes it, and so does a trial; it is most likely a slip.
    ReversedRange {
        /// The left byte, which may be the last of a character of several bytes.
        offset: usize,
    },
    /// Any other number. The library gives none to the functions that take a [`crate::Version`]; 25 and 30 come from [`crate::raw`].
    Other {
        /// The number.
        number: u32,
        /// The answer's offset.
        offset: usize,
    },
}

/// A carried code point. Every one that the library gives is a character.
fn character(code: u32) -> char {
    char::from_u32(code).unwrap_or(char::REPLACEMENT_CHARACTER)
}

impl Refusal {
    pub(crate) fn new(number: u32, offset: usize, first: u32, second: u32) -> Self {
        match number {
            raw::TRUNCATED_SPECIFIER => Self::TruncatedSpecifier { offset },
            raw::UNKNOWN_SPECIFIER => Self::UnknownSpecifier { offset, character: character(first) },
            raw::BAD_FLAG => Self::BadFlag { offset, character: character(first) },
            raw::BAD_WIDTH => Self::BadWidth { offset },
            raw::BAD_PRECISION => Self::BadPrecision { offset },
            raw::BAD_MODIFIER => Self::BadModifier { offset, modifier: character(first), conversion: character(second) },
            raw::LONG_SPECIFIER => Self::LongSpecifier { offset },
            raw::UNTERMINATED_SET => Self::UnterminatedSet { offset },
            raw::EMPTY_SET => Self::EmptySet { offset },
            raw::BAD_ESCAPE => Self::BadEscape { offset, character: character(first) },
            raw::UNMATCHED_CAPTURE => Self::UnmatchedCapture { offset },
            raw::TOO_MANY_CAPTURES => Self::TooManyCaptures { offset },
            raw::BAD_BACK_REFERENCE => Self::BadBackReference { offset },
            raw::INVALID_PACK_OPTION => Self::InvalidPackOption { offset, character: character(first) },
            raw::TRUNCATED_PACK_SIZE => Self::TruncatedPackSize { offset },
            raw::PACK_SIZE_LIMITS => Self::PackSizeOutOfLimits { offset },
            raw::BAD_PACK_ALIGNMENT => Self::BadPackAlignment { offset },
            raw::VARIABLE_LENGTH => Self::VariableLengthPackOption { offset, character: character(first) },
            raw::LONE_PERCENT => Self::LonePercent { offset },
            raw::BAD_REPLACEMENT => Self::BadReplacementEscape { offset },
            raw::CAPTURE_INDEX => Self::CaptureIndexOutOfRange { offset },
            raw::BAD_DATE_SPECIFIER => Self::BadDateSpecifier { offset },
            raw::NOT_UTF8 => Self::NotUtf8 { offset },
            raw::REVERSED_RANGE => Self::ReversedRange { offset },
            number => Self::Other { number, offset },
        }
    }

    /// The number of the refusal, as in `docs/REFUSALS.md`.
    #[must_use]
    pub const fn number(&self) -> u32 {
        match *self {
            Self::TruncatedSpecifier { .. } => raw::TRUNCATED_SPECIFIER,
            Self::UnknownSpecifier { .. } => raw::UNKNOWN_SPECIFIER,
            Self::BadFlag { .. } => raw::BAD_FLAG,
            Self::BadWidth { .. } => raw::BAD_WIDTH,
            Self::BadPrecision { .. } => raw::BAD_PRECISION,
            Self::BadModifier { .. } => raw::BAD_MODIFIER,
            Self::LongSpecifier { .. } => raw::LONG_SPECIFIER,
            Self::UnterminatedSet { .. } => raw::UNTERMINATED_SET,
            Self::EmptySet { .. } => raw::EMPTY_SET,
            Self::BadEscape { .. } => raw::BAD_ESCAPE,
            Self::UnmatchedCapture { .. } => raw::UNMATCHED_CAPTURE,
            Self::TooManyCaptures { .. } => raw::TOO_MANY_CAPTURES,
            Self::BadBackReference { .. } => raw::BAD_BACK_REFERENCE,
            Self::InvalidPackOption { .. } => raw::INVALID_PACK_OPTION,
            Self::TruncatedPackSize { .. } => raw::TRUNCATED_PACK_SIZE,
            Self::PackSizeOutOfLimits { .. } => raw::PACK_SIZE_LIMITS,
            Self::BadPackAlignment { .. } => raw::BAD_PACK_ALIGNMENT,
            Self::VariableLengthPackOption { .. } => raw::VARIABLE_LENGTH,
            Self::LonePercent { .. } => raw::LONE_PERCENT,
            Self::BadReplacementEscape { .. } => raw::BAD_REPLACEMENT,
            Self::CaptureIndexOutOfRange { .. } => raw::CAPTURE_INDEX,
            Self::BadDateSpecifier { .. } => raw::BAD_DATE_SPECIFIER,
            Self::NotUtf8 { .. } => raw::NOT_UTF8,
            Self::ReversedRange { .. } => raw::REVERSED_RANGE,
            Self::Other { number, .. } => number,
        }
    }

    /// The byte at fault.
    #[must_use]
    pub const fn offset(&self) -> usize {
        match *self {
            Self::TruncatedSpecifier { offset }
            | Self::UnknownSpecifier { offset, .. }
            | Self::BadFlag { offset, .. }
            | Self::BadWidth { offset }
            | Self::BadPrecision { offset }
            | Self::BadModifier { offset, .. }
            | Self::LongSpecifier { offset }
            | Self::UnterminatedSet { offset }
            | Self::EmptySet { offset }
            | Self::BadEscape { offset, .. }
            | Self::UnmatchedCapture { offset }
            | Self::TooManyCaptures { offset }
            | Self::BadBackReference { offset }
            | Self::InvalidPackOption { offset, .. }
            | Self::TruncatedPackSize { offset }
            | Self::PackSizeOutOfLimits { offset }
            | Self::BadPackAlignment { offset }
            | Self::VariableLengthPackOption { offset, .. }
            | Self::LonePercent { offset }
            | Self::BadReplacementEscape { offset }
            | Self::CaptureIndexOutOfRange { offset }
            | Self::BadDateSpecifier { offset }
            | Self::NotUtf8 { offset }
            | Self::ReversedRange { offset }
            | Self::Other { offset, .. } => offset,
        }
    }
}

/// luck's own words, and the place.
impl fmt::Display for Refusal {
    fn fmt(&self, f: &mut fmt::Formatter<'_>) -> fmt::Result {
        match self {
            Self::TruncatedSpecifier { offset } => write!(f, "truncated specifier at offset {offset}"),
            Self::UnknownSpecifier { offset, character } => write!(f, "unknown specifier `%{character}` at offset {offset}"),
            Self::BadFlag { offset, character } => write!(f, "too many flags at `{character}` at offset {offset}"),
            Self::BadWidth { offset } => write!(f, "width too long at offset {offset}"),
            Self::BadPrecision { offset } => write!(f, "precision too long at offset {offset}"),
            Self::BadModifier { offset, modifier, conversion } => {
                write!(f, "`%{conversion}` can't take `{modifier}` at offset {offset}")
            }
            Self::LongSpecifier { offset } => write!(f, "specifier too long at offset {offset}"),
            Self::UnterminatedSet { offset } => write!(f, "unterminated set at offset {offset}"),
            Self::EmptySet { offset } => write!(f, "empty set at offset {offset}"),
            Self::BadEscape { offset, character } => write!(f, "bad escape `%{character}` at offset {offset}"),
            Self::UnmatchedCapture { offset } => write!(f, "unmatched capture at offset {offset}"),
            Self::TooManyCaptures { offset } => write!(f, "too many captures at offset {offset}"),
            Self::BadBackReference { offset } => write!(f, "back reference names no closed capture at offset {offset}"),
            Self::InvalidPackOption { offset, character } => write!(f, "invalid pack option `{character}` at offset {offset}"),
            Self::TruncatedPackSize { offset } => write!(f, "truncated pack size at offset {offset}"),
            Self::PackSizeOutOfLimits { offset } => write!(f, "integer size out of limits at offset {offset}"),
            Self::BadPackAlignment { offset } => write!(f, "alignment is not a power of 2 at offset {offset}"),
            Self::VariableLengthPackOption { offset, character } => {
                write!(f, "variable-length option `{character}` at offset {offset}")
            }
            Self::LonePercent { offset } => write!(f, "ends with a lone `%` at offset {offset}"),
            Self::BadReplacementEscape { offset } => {
                write!(f, "unexpected character after `%`, expected a digit or `%` at offset {offset}")
            }
            Self::CaptureIndexOutOfRange { offset } => {
                write!(f, "capture index is higher than the pattern's capture count at offset {offset}")
            }
            Self::BadDateSpecifier { offset } => {
                write!(f, "unexpected character after `%`, expected a date specifier or `%` at offset {offset}")
            }
            Self::NotUtf8 { offset } => write!(f, "not UTF-8 at offset {offset}"),
            Self::ReversedRange { offset } => write!(f, "reversed range at offset {offset}"),
            Self::Other { number, offset } => write!(f, "refusal {number} at offset {offset}"),
        }
    }
}

impl Error for Refusal {}
