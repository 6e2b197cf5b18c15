#!/bin/sh
# Proves the crates of the C interface and writes target/staticlib/libergo_index.a, the static library of the crate `ergo_index_c`. Prints only what fails;
# the whole is in target/archive.log.
set -eu
cd "$(dirname "$0")/.."
command -v rt >/dev/null || { echo "the Rattle kit is missing: no command 'rt' on PATH (expected in /opt/rattle/bin)" >&2; exit 2; }

mkdir -p target/staticlib
log=$PWD/target/archive.log
(cd crates/ergo_index_c && rt lib) >"$log" 2>&1 || { tail -n 20 "$log" >&2; exit 1; }
cp crates/ergo_index_c/out/libergo_index_c.a target/staticlib/libergo_index.a
