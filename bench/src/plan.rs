//! How much is measured.

use std::time::Duration;

pub struct Plan {
    /// An odd number, so that one round is in the middle.
    pub rounds: usize,
    /// The least time that a baseline is run for in a round: far more than the clock's own cost.
    pub sample: Duration,
    /// Texts are this much smaller than in a full run.
    divisor: usize,
}

impl Plan {
    pub const FULL: Self = Self { rounds: 9, sample: Duration::from_millis(20), divisor: 1 };
    /// Shows that everything runs. Its times say nothing.
    pub const QUICK: Self = Self { rounds: 3, sample: Duration::from_millis(1), divisor: 64 };

    pub const fn is_quick(&self) -> bool {
        self.divisor != 1
    }

    pub const fn size(&self, bytes: usize) -> usize {
        bytes / self.divisor
    }
}

pub const KIB: usize = 1 << 10;
pub const MIB: usize = 1 << 20;
pub const MB: usize = 1_000_000;

/// A size in the largest unit that has no long fraction of it.
pub fn size_name(bytes: usize) -> String {
    if bytes.is_multiple_of(MIB) {
        format!("{} MiB", bytes / MIB)
    } else if bytes.is_multiple_of(MB / 10) {
        format!("{} MB", bytes as f64 / MB as f64)
    } else if bytes.is_multiple_of(KIB) {
        format!("{} KiB", bytes / KIB)
    } else {
        format!("{bytes} bytes")
    }
}
