//! Stand-in for `ergo_indexer_types`.

pub type TokenId = ergo_primitives::digest::Digest32;

#[derive(Debug, Clone, Copy, PartialEq, Eq)]
pub enum IndexerHaltReason {
    SchemaCorruption,
    UndoMissing,
    SectionMissing,
    InputMissing,
    DbCorruption,
}
