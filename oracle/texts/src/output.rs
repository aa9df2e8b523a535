//! An output to lend: filled with a pattern, between two guards, so that any byte written outside the value shows.

use crate::random::Random;

const GUARD: usize = 16;

#[derive(Default)]
pub struct Output {
    /// What every byte is before the call.
    pattern: Vec<u8>,
    bytes: Vec<u8>,
}

impl Output {
    /// An output of this room, holding the pattern.
    pub fn lend(&mut self, room: usize) -> &mut [u8] {
        let length = GUARD + room + GUARD;
        if self.pattern.len() < length {
            self.pattern = pattern(length);
        }
        self.bytes.clear();
        self.bytes.extend_from_slice(&self.pattern[..length]);
        &mut self.bytes[GUARD..GUARD + room]
    }

    /// Whether the output that was lent last starts with `value` and all else is as it was, the guards too.
    pub fn holds_only(&self, value: &[u8]) -> bool {
        let (before, from_value) = self.bytes.split_at(GUARD);
        let after_value = GUARD + value.len();
        before == &self.pattern[..GUARD]
            && from_value.starts_with(value)
            && self.bytes[after_value..] == self.pattern[after_value..self.bytes.len()]
    }

    /// The lent bytes, for a report.
    pub fn lent(&self) -> &[u8] {
        &self.bytes[GUARD..self.bytes.len() - GUARD]
    }
}

/// No two places near each other look alike, so bytes moved by a few places show too.
fn pattern(length: usize) -> Vec<u8> {
    let mut random = Random::new(0x6F75_7470_7574);
    (0..length).map(|_| random.byte()).collect()
}
