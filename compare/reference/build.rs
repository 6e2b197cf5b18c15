//! Names the reference's files where they stand: under $ERGO_REFERENCE, by default ../shared/docs/src beside the repository.

use std::path::{Path, PathBuf};
use std::{env, fs};

fn main() {
    println!("cargo:rerun-if-env-changed=ERGO_REFERENCE");
    let repository = Path::new(&env::var("CARGO_MANIFEST_DIR").unwrap()).join("../..");
    let folder = match env::var("ERGO_REFERENCE") {
        Ok(given) => repository.join(given),
        Err(_) => repository.join("../shared/docs/src"),
    };
    let folder = folder.join("ergo-indexer/src");
    let at = |name: &str| -> PathBuf {
        let file = folder.join(name);
        println!("cargo:rerun-if-changed={}", file.display());
        file.canonicalize().unwrap_or_else(|e| {
            panic!(
                "the reference has no {}: {e}; name its folder by ERGO_REFERENCE",
                file.display()
            )
        })
    };
    let module = |name: &str, file: &str| format!("#[path = {:?}]\npub mod {name};\n", at(file));
    at("segment_perf.rs");
    let text = [
        module("address", "address.rs"),
        module("error", "error.rs"),
        module("segment", "segment.rs"),
        module("segment_buffer", "segment_buffer.rs"),
        module("segment_id", "segment_id.rs"),
        "pub mod store {\n".into(),
        module("segment", "store/segment.rs"),
        module("tables", "store/tables.rs"),
        module("undo", "store/undo.rs"),
        "}\n".into(),
    ]
    .concat();
    let out = Path::new(&env::var("OUT_DIR").unwrap()).join("files.rs");
    fs::write(out, text).unwrap();
}
