//! A plain program of the trial's rules, for the comparison and for the bench.

pub mod plain;
