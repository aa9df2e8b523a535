//! The checks of a body: a literal's text between its quotes, its escapes as they are written.

use crate::raw::{self, Answer};
use crate::refusal::Refusal;
use crate::version::Version;

/// A C function that checks a body and asks for nothing else.
type Check = unsafe extern "C" fn(u32, *const u8, usize) -> Answer;

fn call(check: Check, version: Version, body: &[u8]) -> Result<usize, Refusal> {
    // SAFETY: the slice is live for the call, and the function reads no byte outside it.
    unsafe { check(version.number(), body.as_ptr(), body.len()) }.result()
}

impl Answer {
    /// The count of an accepted text, or the refusal.
    ///
    /// # Errors
    ///
    /// Whatever the number is, if it is not 0.
    pub fn result(self) -> Result<usize, Refusal> {
        if self.number == raw::ACCEPTED {
            return Ok(self.count);
        }
        Err(Refusal::new(self.number, self.offset, self.first, self.second))
    }
}

/// Checks a format of `string.format`, and counts the arguments that its specifiers take.
///
/// ```
/// use luck::Version;
///
/// assert_eq!(luck::check_format(Version::Lua51, b"%d of %s"), Ok(2));
/// let refusal = luck::check_format(Version::Lua54, b"%#d").unwrap_err();
/// assert_eq!(refusal.to_string(), "`%d` can't take `#` at offset 1");
/// ```
///
/// # Errors
///
/// The first fault: refusals 1 to 7, or [`Refusal::NotUtf8`].
pub fn check_format(version: Version, body: &[u8]) -> Result<usize, Refusal> {
    call(raw::luck_check_format, version, body)
}

/// Checks a pattern of `string.find`, `match`, `gmatch` and `gsub`, and counts its captures, `()` included.
///
/// ```
/// use luck::{Refusal, Version};
///
/// assert_eq!(luck::check_pattern(Version::Lua54, b"()(%a+)"), Ok(2));
/// assert_eq!(luck::check_pattern(Version::Lua54, b"(%d+"), Err(Refusal::UnmatchedCapture { offset: 4 }));
/// assert_eq!(luck::check_pattern(Version::Lua54, b"[z-a]"), Err(Refusal::ReversedRange { offset: 1 }));
/// ```
///
/// # Errors
///
/// The first fault: refusals 1 and 8 to 13, [`Refusal::ReversedRange`], which Lua itself takes, or [`Refusal::NotUtf8`].
pub fn check_pattern(version: Version, body: &[u8]) -> Result<usize, Refusal> {
    call(raw::luck_check_pattern, version, body)
}

/// Checks a format of `string.pack` and `unpack`, and counts its values. A version that has no `string.pack` is checked in the same way.
///
/// ```
/// use luck::{Refusal, Version};
///
/// assert_eq!(luck::check_pack(Version::Lua53, b"<i4s"), Ok(2));
/// assert_eq!(luck::check_pack(Version::Lua53, b"i17"), Err(Refusal::PackSizeOutOfLimits { offset: 1 }));
/// ```
///
/// # Errors
///
/// The first fault: refusals 14 to 17, or [`Refusal::NotUtf8`].
pub fn check_pack(version: Version, body: &[u8]) -> Result<usize, Refusal> {
    call(raw::luck_check_pack, version, body)
}

/// Checks a format of `string.packsize`, which has no option of variable length, and counts its values.
///
/// ```
/// use luck::{Refusal, Version};
///
/// assert_eq!(luck::check_packsize(Version::Lua53, b"i4c8"), Ok(2));
/// let refusal = Refusal::VariableLengthPackOption { offset: 2, character: 's' };
/// assert_eq!(luck::check_packsize(Version::Lua53, b"i4s"), Err(refusal));
/// ```
///
/// # Errors
///
/// The first fault: refusals 14 to 18, or [`Refusal::NotUtf8`].
pub fn check_packsize(version: Version, body: &[u8]) -> Result<usize, Refusal> {
    call(raw::luck_check_packsize, version, body)
}

/// Checks a format of `os.date`.
///
/// ```
/// use luck::{Refusal, Version};
///
/// assert_eq!(luck::check_date(Version::Lua52, b"%Y-%m-%d"), Ok(()));
/// assert_eq!(luck::check_date(Version::Lua52, b"%Q"), Err(Refusal::BadDateSpecifier { offset: 1 }));
/// ```
///
/// # Errors
///
/// The first fault: refusals 19 and 22, or [`Refusal::NotUtf8`].
pub fn check_date(version: Version, body: &[u8]) -> Result<(), Refusal> {
    call(raw::luck_check_date, version, body).map(|_| ())
}

/// Checks a replacement of `string.gsub`. `captures` is the count of the pattern's captures; where it is not known, no digit is refused.
///
/// ```
/// use luck::{Refusal, Version};
///
/// assert_eq!(luck::check_replacement(Version::Lua54, None, b"<%2>"), Ok(()));
/// assert_eq!(luck::check_replacement(Version::Lua54, Some(1), b"<%2>"), Err(Refusal::CaptureIndexOutOfRange { offset: 2 }));
/// ```
///
/// # Errors
///
/// The first fault: refusals 19 to 21, or [`Refusal::NotUtf8`].
pub fn check_replacement(version: Version, captures: Option<usize>, body: &[u8]) -> Result<(), Refusal> {
    let (known, count) = (captures.is_some(), captures.unwrap_or(0));
    // SAFETY: the slice is live for the call, and the function reads no byte outside it.
    let answer = unsafe { raw::luck_check_replacement(version.number(), known, count, body.as_ptr(), body.len()) };
    answer.result().map(|_| ())
}
