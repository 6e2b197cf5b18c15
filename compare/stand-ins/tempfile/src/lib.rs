//! Stand-in for `tempfile`: a folder's name; the stand-in for `redb` keeps its tables in memory.

use std::path::{Path, PathBuf};

pub struct TempDir(PathBuf);

impl TempDir {
    pub fn path(&self) -> &Path {
        &self.0
    }
}

pub fn tempdir() -> std::io::Result<TempDir> {
    Ok(TempDir(std::env::temp_dir()))
}
