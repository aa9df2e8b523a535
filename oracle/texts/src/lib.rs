//! What the comparisons share: how texts are made, and how a run is asked for, takes its parts and reports. Nothing here knows what is
//! right of a text.

pub mod exhaustive;
pub mod output;
pub mod random;
pub mod real_lua;
pub mod section;
pub mod words;
