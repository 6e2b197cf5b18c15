#!/bin/bash
# The gate: `rt ci` over every crate of crates.txt, at the top of the checkout. It fails where `rt ci` fails and where an edit is bad, that is where it shows
# nothing. The lines of the last run stay in target/gate.log.
set -u
cd "$(dirname "$0")/.."
mkdir -p target
rt ci 2>&1 | tee target/gate.log
status=${PIPESTATUS[0]}
[ "$status" -eq 0 ] || exit "$status"
if grep -Eq '^rt: ok.*, [1-9][0-9]* bad' target/gate.log; then
    echo "gate: a must-fail edit is bad" >&2
    exit 1
fi
