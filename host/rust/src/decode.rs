//! The bytes that a literal stands for.

use std::error::Error;
use std::fmt;

use crate::raw::{self, Decoded};
use crate::version::Version;

/// Why a literal has no value, or none that could be written.
#[derive(Debug, Clone, Copy, PartialEq, Eq, Hash)]
#[non_exhaustive]
pub enum DecodeError {
    /// 23: not UTF-8.
    NotUtf8 {
        /// The first byte of the first ill-formed sequence.
        offset: usize,
    },
    /// 24: no literal, or an escape that is malformed or that is not read in this version: one that it does not have, or a `\u{}` of a
    /// number that it does not take. Lua 5.4 and 5.5 take each up to 7FFFFFFF, Lua 5.3 and Luau up to 10FFFF and no surrogate.
    Undecodable,
    /// 26: the value is longer than the output.
    OutputTooShort,
    /// Any other number. The library gives none to the functions that take a [`Version`]; 25 comes from [`crate::raw`].
    Other {
        /// The number.
        number: u32,
    },
}

impl fmt::Display for DecodeError {
    fn fmt(&self, f: &mut fmt::Formatter<'_>) -> fmt::Result {
        match self {
            Self::NotUtf8 { offset } => write!(f, "not UTF-8 at offset {offset}"),
            Self::Undecodable => f.write_str("no literal, or an escape that is malformed or that is not read in this version"),
            Self::OutputTooShort => f.write_str("the value is longer than the output"),
            Self::Other { number } => write!(f, "refusal {number}"),
        }
    }
}

impl Error for DecodeError {}

impl Decoded {
    /// The length of the value, or the refusal.
    ///
    /// # Errors
    ///
    /// Whatever the number is, if it is not 0.
    pub fn result(self) -> Result<usize, DecodeError> {
        match self.number {
            raw::ACCEPTED => Ok(self.written),
            raw::NOT_UTF8 => Err(DecodeError::NotUtf8 { offset: self.offset }),
            raw::UNDECODABLE => Err(DecodeError::Undecodable),
            raw::OUTPUT_TOO_SHORT => Err(DecodeError::OutputTooShort),
            number => Err(DecodeError::Other { number }),
        }
    }
}

/// Writes the bytes that a literal stands for to the front of `output`, and gives their count. The rest of the output is as it was;
/// a refusal leaves all of it as it was. As many bytes as `text` has are always enough. The value need not be UTF-8: see
/// [`decode_string`].
///
/// ```
/// use luck::{DecodeError, Version};
///
/// let mut output = [0xAA; 4];
/// assert_eq!(luck::decode_string_into(Version::Lua52, br#""a\n""#, &mut output), Ok(2));
/// assert_eq!(output, [b'a', b'\n', 0xAA, 0xAA]);
/// assert_eq!(luck::decode_string_into(Version::Lua52, b"'12345'", &mut output), Err(DecodeError::OutputTooShort));
/// ```
///
/// # Errors
///
/// In this order: [`DecodeError::NotUtf8`], [`DecodeError::Undecodable`], [`DecodeError::OutputTooShort`].
pub fn decode_string_into(version: Version, text: &[u8], output: &mut [u8]) -> Result<usize, DecodeError> {
    // SAFETY: both slices are live for the call and apart from each other, and the function stays inside them.
    let answer =
        unsafe { raw::luck_decode_string(version.number(), text.as_ptr(), text.len(), output.as_mut_ptr(), output.len()) };
    answer.result()
}

/// The bytes that a literal stands for: short in two equal quotes, or in long brackets.
///
/// They need not be UTF-8: an escape such as `\255` spells any byte, and in Lua 5.4 and 5.5 a `\u{}` of a surrogate or above 10FFFF has
/// three to six bytes by the original UTF-8 (RFC 2279). A check refuses such a value, and a trial takes it.
///
/// ```
/// use luck::{Refusal, Version};
///
/// assert_eq!(luck::decode_string(Version::Lua54, br#""\u{E9}""#), Ok("é".into()));
/// assert!(luck::decode_string(Version::Lua52, br#""\q""#).is_err());
///
/// let value = luck::decode_string(Version::Lua54, br#""\u{110000}""#)?;
/// assert_eq!(value, [0xF4, 0x90, 0x80, 0x80]);
/// assert_eq!(luck::check_pattern(Version::Lua54, &value), Err(Refusal::NotUtf8 { offset: 0 }));
/// # Ok::<(), luck::DecodeError>(())
/// ```
///
/// # Errors
///
/// In this order: [`DecodeError::NotUtf8`], [`DecodeError::Undecodable`].
pub fn decode_string(version: Version, text: &[u8]) -> Result<Vec<u8>, DecodeError> {
    let mut value = vec![0; text.len()];
    let written = decode_string_into(version, text, &mut value)?;
    value.truncate(written);
    Ok(value)
}
