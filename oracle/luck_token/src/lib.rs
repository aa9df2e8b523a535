//! luck's token crate: the modules that the proved library ports, from luck's own files (see build.rs).

extern crate alloc;

// luck's modules look for each other at the crate's root.
pub use span::*;
pub use string::*;
pub use version::*;
pub use whitespace::*;

include!(concat!(env!("OUT_DIR"), "/root.rs"));
