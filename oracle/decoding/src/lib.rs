//! A plain program of the rules of decoding, for the comparisons here and for the one with luck.

pub mod plain;
