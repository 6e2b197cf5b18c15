//! The reference Rust, built from its own files byte for byte, where they stand. Nothing of it is kept here: `build.rs` names the files, the crates in
//! ../stand-ins take the place of what they build on, and this file opens what they keep to their crate.

#![allow(dead_code, unreachable_code, unused_imports, unused_variables)]

include!(concat!(env!("OUT_DIR"), "/files.rs"));

pub mod calls;

pub use ergo_indexer_types::TokenId;
pub use ergo_primitives::digest::{blake2b256, Digest32};
pub use ergo_primitives::reader::{ReadError, VlqReader};
pub use ergo_primitives::writer::VlqWriter;

pub type HeaderId = Digest32;

/// The one function of `apply.rs` that the flush calls: a row goes into a table through a cleared writer.
pub(crate) mod apply {
    use crate::error::IndexerError;
    use crate::VlqWriter;
    use redb::Table;

    pub(crate) fn write_then_insert(
        table: &mut Table<&[u8], &[u8]>,
        writer: &mut VlqWriter,
        key: &[u8],
        put: impl FnOnce(&mut VlqWriter) -> Result<(), IndexerError>,
    ) -> Result<(), IndexerError> {
        writer.clear();
        put(writer)?;
        Ok(table.insert(key, writer.as_slice())?)
    }
}
