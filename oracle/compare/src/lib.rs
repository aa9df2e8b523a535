//! The proved library beside luck's Rust: the texts that are asked, what is right, and where the two differ.

pub mod comparison;
pub mod kind;
pub mod lines;
pub mod reference;
pub mod run;
pub mod store;
pub mod texts;
