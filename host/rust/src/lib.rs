//! Checks of Lua string literals, and a trial of gsub, for Lua 5.1 to 5.5 and Luau.
//!
//! These are safe functions over the C functions of `include/luck.h`, which are proved. They take any bytes, keep no state and
//! do not panic; only [`decode_string`] allocates. They may run in any number of threads at once.
//!
//! ```
//! use luck::{Refusal, Version};
//!
//! assert_eq!(luck::check_pattern(Version::Lua54, b"(%d+)"), Ok(1));
//!
//! let refusal = luck::check_format(Version::Lua54, b"%y").unwrap_err();
//! assert_eq!(refusal, Refusal::UnknownSpecifier { offset: 1, character: 'y' });
//! assert_eq!(refusal.to_string(), "unknown specifier `%y` at offset 1");
//! ```
//!
//! [`raw`] has the C functions themselves, with plain numbers.

mod check;
mod decode;
mod kind;
mod literal;
pub mod raw;
mod refusal;
mod trial;
mod version;

pub use check::{check_date, check_format, check_pack, check_packsize, check_pattern, check_replacement};
pub use decode::{DecodeError, decode_string, decode_string_into};
pub use kind::Kind;
pub use literal::{LiteralCheck, LiteralError, Span, check_literal};
pub use refusal::Refusal;
pub use trial::{Ending, RaisedKind, Trial, gsub_trial};
pub use version::{UnknownVersion, Version};
