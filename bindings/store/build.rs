//! Links liblmdb where it is installed (Debian: liblmdb-dev, which `make setup` installs), and else builds the crate with the store in memory alone.

use std::path::Path;

const FOLDERS: [&str; 5] = ["/usr/lib/x86_64-linux-gnu", "/usr/lib64", "/usr/lib", "/usr/local/lib", "/lib/x86_64-linux-gnu"];

fn main() {
    println!("cargo:rerun-if-changed=build.rs");
    println!("cargo:rerun-if-env-changed=ERGO_INDEX_NO_LMDB");
    let without = std::env::var_os("ERGO_INDEX_NO_LMDB").is_some();
    let found = FOLDERS.iter().map(|folder| Path::new(folder).join("liblmdb.so")).find(|library| library.exists());
    match found {
        Some(library) if !without => {
            println!("cargo:rustc-cfg=lmdb");
            println!("cargo:rustc-link-lib=lmdb");
            println!("cargo:rerun-if-changed={}", library.display());
        }
        _ => FOLDERS.iter().for_each(|folder| println!("cargo:rerun-if-changed={folder}/liblmdb.so")),
    }
}
