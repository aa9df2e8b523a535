//! The texts that are asked: literals and bodies, all short ones of an alphabet, picked by hand, and random.

pub mod bodies;
pub mod body_edges;
pub mod edges;
pub mod exhaustive;
pub mod grammar;
pub mod symbols;

pub use ::texts::random;
