//! Stand-in for the crate `memchr`: the two searches that luck uses.

/// The place of the first `needle`.
#[must_use]
pub fn memchr(needle: u8, haystack: &[u8]) -> Option<usize> {
    haystack.iter().position(|&byte| byte == needle)
}

/// The place of the first byte that is one of the two.
#[must_use]
pub fn memchr2(first: u8, second: u8, haystack: &[u8]) -> Option<usize> {
    haystack.iter().position(|&byte| byte == first || byte == second)
}
