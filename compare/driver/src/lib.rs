//! What the comparison and the benchmarks share: both sides, inputs, and the report.

pub mod blocks;
pub mod call;
pub mod checks;
pub mod codes;
pub mod editions;
pub mod hashlib;
pub mod index;
pub mod loads;
pub mod measure;
pub mod random;
pub mod report;
pub mod sample;
pub mod sides;
pub mod store_peer;
pub mod summaries;
pub mod tables;

pub use ergo_index::ffi;
