//! Stand-in for `ergo_primitives`: digests, and coded numbers by document 01, "Coded numbers".

mod blake2b;
pub mod digest;
pub mod reader;
pub mod writer;
