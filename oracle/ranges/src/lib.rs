//! A plain program of the check of patterns with F-10, and random patterns with ranges, for the comparisons here and for the
//! one with luck.

pub mod answers;
pub mod grammar;
pub mod plain;
