//! Links libergo_index.a: from `ERGO_INDEX_LIB_DIR`, or else from the repository's target/staticlib, where include/archive.sh proves and builds it first if
//! it is missing or older than a source and the Rattle kit's `rt` is on PATH.

use std::env;
use std::path::{Path, PathBuf};
use std::process::{exit, Command};
use std::time::SystemTime;

const ARCHIVE: &str = "libergo_index.a";

fn fail(why: &str) -> ! {
    eprintln!("ergo-index: {why}");
    exit(1);
}

fn build_archive(repository: &Path) {
    let script = repository.join("include/archive.sh");
    let why = match Command::new(&script).status() {
        Ok(status) if status.success() => return,
        Ok(status) => format!("{} ended with {status}", script.display()),
        Err(error) => format!("{}: {error}", script.display()),
    };
    fail(&format!("no {ARCHIVE}, and it was not built: {why}. Or name the folder of the archive in ERGO_INDEX_LIB_DIR"));
}

fn archive_folder() -> PathBuf {
    if let Some(given) = env::var_os("ERGO_INDEX_LIB_DIR") {
        let folder = PathBuf::from(given);
        if !folder.join(ARCHIVE).is_file() {
            fail(&format!("ERGO_INDEX_LIB_DIR is {}, which has no {ARCHIVE}", folder.display()));
        }
        return folder;
    }
    let here = PathBuf::from(env::var_os("CARGO_MANIFEST_DIR").expect("cargo sets CARGO_MANIFEST_DIR"));
    let repository = here.join("../..");
    let folder = repository.join("target/staticlib");
    for source in ["crates", "crates.txt", "include/archive.sh"] {
        println!("cargo:rerun-if-changed={}", repository.join(source).display());
    }
    let built = folder.join(ARCHIVE).metadata().and_then(|archive| archive.modified());
    if !built.is_ok_and(|built| newest_source(&repository) <= built) {
        build_archive(&repository);
    }
    folder
}

/// When a source of the archive was changed last.
fn newest_source(repository: &Path) -> SystemTime {
    let mut newest = SystemTime::UNIX_EPOCH;
    let mut open = vec![repository.join("crates"), repository.join("crates.txt"), repository.join("include/archive.sh")];
    while let Some(path) = open.pop() {
        if path.is_dir() {
            open.extend(path.read_dir().into_iter().flatten().flatten().map(|entry| entry.path()));
        } else if let Ok(changed) = path.metadata().and_then(|file| file.modified()) {
            newest = newest.max(changed);
        }
    }
    newest
}

fn main() {
    let folder = archive_folder();
    println!("cargo:rerun-if-env-changed=ERGO_INDEX_LIB_DIR");
    println!("cargo:rerun-if-changed=build.rs");
    println!("cargo:rerun-if-changed={}", folder.join(ARCHIVE).display());
    println!("cargo:rustc-link-search=native={}", folder.display());
    println!("cargo:rustc-link-lib=static=ergo_index");
}
