//! Stand-in for the crate `compact_str`. luck uses its string as an owned one that can be appended to, which `String` is.

pub use std::string::String as CompactString;
