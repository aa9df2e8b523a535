//! The proved library, by its C interface: the functions of `include/luck.h`, and with the feature `token` those of the token crate.
//!
//! A `bool` of the library is declared as a byte here, which is passed in the same way, so that a byte that is neither
//! 0 nor 1 shows as a difference instead of being undefined.

pub mod c;
#[cfg(feature = "token")]
pub mod token;

pub use c::{Answer, Decoded, Literal, Trial};

/// The archive that this crate is linked with.
pub const ARCHIVE: &str = env!("LUCK_ARCHIVE");

// SAFETY, of every call below: the slices are whole, live and apart from each other, which is all that the library asks
// of its callers.

/// A check that asks for nothing but a version and a body.
#[inline]
pub fn check(check: c::Check, version: u32, body: &[u8]) -> Answer {
    unsafe { check(version, body.as_ptr(), body.len()) }
}

/// An unknown count of captures is passed as 0, which would refuse most digits if the library looked at it.
#[inline]
pub fn check_replacement(version: u32, captures: Option<usize>, body: &[u8]) -> Answer {
    let (known, count) = (captures.is_some().into(), captures.unwrap_or(0));
    unsafe { c::luck_check_replacement(version, known, count, body.as_ptr(), body.len()) }
}

/// The captures as in [`check_replacement`].
#[inline]
pub fn check_literal(kind: u8, version: u32, captures: Option<usize>, start: u32, text: &[u8]) -> Literal {
    let (known, count) = (captures.is_some().into(), captures.unwrap_or(0));
    unsafe { c::luck_check_literal(kind, version, known, count, start, text.as_ptr(), text.len()) }
}

#[inline]
pub fn decode_string(version: u32, text: &[u8], output: &mut [u8]) -> Decoded {
    unsafe { c::luck_decode_string(version, text.as_ptr(), text.len(), output.as_mut_ptr(), output.len()) }
}

#[inline]
pub fn gsub(version: u32, pattern: &[u8], replacement: &[u8], subject: &[u8], budget: u32, output: &mut [u8]) -> Trial {
    unsafe {
        c::luck_gsub_trial(
            version,
            pattern.as_ptr(),
            pattern.len(),
            replacement.as_ptr(),
            replacement.len(),
            subject.as_ptr(),
            subject.len(),
            budget,
            output.as_mut_ptr(),
            output.len(),
        )
    }
}
