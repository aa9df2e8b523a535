//! luck's error, with the number that document 01 gives to each of its variants.

use crate::format_pattern::PatternError;

/// What a check of luck's refuses a body with.
#[derive(Debug, Clone, Copy, PartialEq, Eq)]
pub struct Fault(pub(crate) PatternError);

impl Fault {
    #[must_use]
    pub const fn offset(self) -> usize {
        self.0.offset()
    }

    /// The number in the table of refusals.
    #[must_use]
    pub const fn number(self) -> u32 {
        match self.0 {
            PatternError::TruncatedSpecifier { .. } => 1,
            PatternError::UnknownSpecifier { .. } => 2,
            PatternError::BadFlag { .. } => 3,
            PatternError::BadWidth { .. } => 4,
            PatternError::BadPrecision { .. } => 5,
            PatternError::BadModifier { .. } => 6,
            PatternError::LongSpecifier { .. } => 7,
            PatternError::UnterminatedSet { .. } => 8,
            PatternError::EmptySet { .. } => 9,
            PatternError::BadEscape { .. } => 10,
            PatternError::UnmatchedCapture { .. } => 11,
            PatternError::TooManyCaptures { .. } => 12,
            PatternError::BadBackReference { .. } => 13,
            PatternError::InvalidPackOption { .. } => 14,
            PatternError::TruncatedPackSize { .. } => 15,
            PatternError::PackSizeOutOfLimits { .. } => 16,
            PatternError::BadPackAlignment { .. } => 17,
            PatternError::VariableLengthPackOption { .. } => 18,
            PatternError::LonePercent { .. } => 19,
            PatternError::BadReplacementEscape { .. } => 20,
            PatternError::CaptureIndexOutOfRange { .. } => 21,
            PatternError::BadDateSpecifier { .. } => 22,
        }
    }

    /// The characters that the variant carries, in the order of its fields.
    #[must_use]
    pub const fn characters(self) -> [Option<char>; 2] {
        match self.0 {
            PatternError::BadModifier { modifier, conversion, .. } => [Some(modifier), Some(conversion)],
            PatternError::UnknownSpecifier { character, .. }
            | PatternError::BadFlag { character, .. }
            | PatternError::BadEscape { character, .. }
            | PatternError::InvalidPackOption { character, .. }
            | PatternError::VariableLengthPackOption { character, .. } => [Some(character), None],
            PatternError::TruncatedSpecifier { .. }
            | PatternError::BadWidth { .. }
            | PatternError::BadPrecision { .. }
            | PatternError::LongSpecifier { .. }
            | PatternError::UnterminatedSet { .. }
            | PatternError::EmptySet { .. }
            | PatternError::UnmatchedCapture { .. }
            | PatternError::TooManyCaptures { .. }
            | PatternError::BadBackReference { .. }
            | PatternError::TruncatedPackSize { .. }
            | PatternError::PackSizeOutOfLimits { .. }
            | PatternError::BadPackAlignment { .. }
            | PatternError::LonePercent { .. }
            | PatternError::BadReplacementEscape { .. }
            | PatternError::CaptureIndexOutOfRange { .. }
            | PatternError::BadDateSpecifier { .. } => [None, None],
        }
    }
}
