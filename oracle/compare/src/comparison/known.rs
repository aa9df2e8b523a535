//! Differences from luck that are meant, each with its reason and where it applies. They are counted apart and do not fail a run.

use crate::comparison::report::Check;

pub struct Known {
    pub reason: &'static str,
    pub applies: fn(check: Check, version: Option<u32>, text: &[u8]) -> bool,
}

/// None today: the definitions follow the Rust, and where F-4 and F-10 go beyond it the reference answers (`reference/wide.rs` and
/// `reference/reversed.rs`).
pub const KNOWN: &[Known] = &[];

pub fn is_known(check: Check, version: Option<u32>, text: &[u8]) -> bool {
    KNOWN.iter().any(|known| (known.applies)(check, version, text))
}
