# make run    proves the call runner and runs it on a sample history that forks across a full row
# make load   writes a load that can be repeated to standard output: CALLS calls from STATE
# make fork-trial  which room the staged and the deleted spills need for given blocks and forks (STATE, STEPS): n a block of n calls, -d a fork of d blocks
# make histories   prints every short history, then runs each on the index at both editions and on the flat list beside a ledger: the release run
# make test   the gate: every crate proved, every must-fail edit refused, every program's output compared
# make c-test    the C interface: proves and builds the archive, links a C program with it and compares what it prints
# make bindings  the Rust crate over the archive: proves and builds the archive, then builds and tests the crate, offline
# make convert   a sample table turned into edition 2 and back; cargo's --example convert does it for a stored table
# make compare         the reference Rust (ERGO_REFERENCE, or ../shared/docs/src) and this index side by side, under a minute
# make compare-full    the same with at least 10 million calls and 100,000 histories
# make compare-sample  the fixed list of the reference's answers, made anew, and what the gate's program is held to
# make vectors         what the gate's program is held to, made from both lists: compare/sample.txt and sample/vectors.txt
# make bench           both sides timed in one run; plots go to docs/
# make all-checks      the gate, the Rust crate and the short comparison
# make flat-view     one account of the sample history (PARENT, CALLS_FILE) as a flat list beside the index, and where the two differ
# make sorted-accounts  the accounts of two servers, one of each edition, in one sequence (ACCOUNTS, ACCOUNT_CALLS)
# make copies        two servers over different forks of one load (HISTORIES, HISTORY_CALLS): whether every answer of the two is the same
# make setup       installs LMDB (Debian's liblmdb-dev) for the store; without it the store is in memory
# make indexer     a small indexer on a sample of blocks and a fork
# make store-demo  indexes a generated chain with forks on disk (BOXES, STORE_PARENTS, STORE), opens it again and shows an account
# make store-check reads the store of store-demo back and compares tallies and summaries
# make crash-test  kills an indexer at random moments (KILLS), opens its store again and compares it with a replay
# make store-bench the index and the reference over the same LMDB (BOXES, STORE_PARENTS)
# make fmt    the layout of all Rattle and antt files
# make facts  by which fact the prover refused each must-fail edit of the last gate

SHELL := /bin/bash
.SHELLFLAGS := -o pipefail -c
RT := $(shell command -v rt 2>/dev/null)
NO_RT := the Rattle kit is missing: no command 'rt' on PATH (expected in /opt/rattle/bin)
ARCHIVE := target/staticlib/libergo_index.a
# What cargo is told of it.
WITH_ARCHIVE := ERGO_INDEX_LIB_DIR=$(CURDIR)/target/staticlib

.PHONY: setup indexer store-demo store-check crash-test store-bench run load histories fork-trial test facts c-test bindings convert flat-view copies sorted-accounts compare compare-full compare-sample compare-build vectors bench all-checks fmt

run:
ifeq ($(RT),)
	@echo "$(NO_RT)" >&2; exit 2
else
	@echo "proving the call runner and what it builds on: minutes the first time, seconds afterwards"
	@mkdir -p target; cd crates/call_runner && rt run < /dev/null 2>&1 >/dev/null | tee ../../target/run.log | grep --line-buffered '^rt: ' || true
	@test -x crates/call_runner/out/call_runner || { tail -n 20 target/run.log >&2; exit 1; }
	@echo "the last lines of the sample history, which has 545 calls:"
	@crates/call_runner/out/call_runner < sample/fork.calls | tail -n 32
endif

STATE := 1
CALLS := 1000

load:
ifeq ($(RT),)
	@echo "$(NO_RT)" >&2; exit 2
else
	@mkdir -p target; (cd crates/load_writer && rt run -- $(STATE) 0) >/dev/null 2>target/load.log || { tail -n 20 target/load.log >&2; exit 1; }
	@crates/load_writer/out/load_writer $(STATE) $(CALLS)
endif

STEPS := 2000 2000 2000 -2 2000

fork-trial: $(ARCHIVE)
	@cd bindings/rust && $(WITH_ARCHIVE) cargo run --offline --locked --quiet --release --example fork_trial -- $(STATE) $(STEPS)

histories: $(ARCHIVE)
	@mkdir -p target; (cd crates/history_printer && rt run) >/dev/null 2>target/histories.log || { tail -n 20 target/histories.log >&2; exit 1; }
	@crates/history_printer/out/history_printer
	@cd bindings/rust && $(WITH_ARCHIVE) cargo run --offline --locked --quiet --release --example short_histories

test:
ifeq ($(RT),)
	@echo "$(NO_RT)" >&2; exit 2
else
	@scripts/gate.sh
endif

# The archive is proved and built again when a source has changed.
$(ARCHIVE): crates.txt include/archive.sh $(shell find crates -name '*.rt' -o -name '*.antt')
	@include/archive.sh

c-test: $(ARCHIVE)
	@mkdir -p target/c
	@$(CC) -std=c11 -Wall -Wextra -Werror -O1 -Iinclude tests/c/history.c $(ARCHIVE) -o target/c/history
	@target/c/history > target/c/history.stdout
	@diff -u tests/c/history.stdout target/c/history.stdout
	@echo "c-test: ok"

bindings: $(ARCHIVE)
	@cd bindings/rust && $(WITH_ARCHIVE) cargo test --offline --locked --quiet
	@cd bindings/store && $(WITH_ARCHIVE) cargo test --offline --locked --quiet

indexer: $(ARCHIVE)
	@cd bindings/rust && $(WITH_ARCHIVE) cargo run --offline --locked --quiet --release --example indexer < /dev/null

setup:
	@apt-get update -qq && apt-get install -y -qq liblmdb-dev

BOXES := 50000
STORE_PARENTS := 1000
STORE := target/store
KILLS := 40

store-demo: $(ARCHIVE)
	@cd bindings/store && $(WITH_ARCHIVE) cargo run --offline --locked --quiet --release --example store_demo -- $(CURDIR)/$(STORE) $(BOXES) $(STORE_PARENTS)

store-check: $(ARCHIVE)
	@cd bindings/store && $(WITH_ARCHIVE) cargo run --offline --locked --quiet --release --example store_check -- $(CURDIR)/$(STORE)

crash-test: $(ARCHIVE)
	@cd bindings/store && $(WITH_ARCHIVE) cargo run --offline --locked --quiet --release --example crash_test -- $(CURDIR)/target/crash $(KILLS)

store-bench: compare-build
	@compare/target/release/store_bench target/store-bench $(BOXES) $(STORE_PARENTS)

CONVERT = cd bindings/rust && $(WITH_ARCHIVE) cargo run --offline --locked --quiet --example convert --

convert: $(ARCHIVE)
	@mkdir -p target/convert
	@$(CONVERT) sample $(CURDIR)/target/convert/table $(CURDIR)/target/convert/parents
	@$(CONVERT) second $(CURDIR)/target/convert/table $(CURDIR)/target/convert/parents $(CURDIR)/target/convert/table-2
	@$(CONVERT) first $(CURDIR)/target/convert/table-2 $(CURDIR)/target/convert/table-1
	@cmp target/convert/table target/convert/table-1
	@echo "convert: ok"

PARENT := 0
CALLS_FILE := sample/fork.calls

flat-view: $(ARCHIVE)
	@cd bindings/rust && $(WITH_ARCHIVE) cargo build --offline --locked --quiet --release --example flat_view
	@bindings/rust/target/release/examples/flat_view $(PARENT) < $(CALLS_FILE)

ACCOUNTS := 6
ACCOUNT_CALLS := 2000

sorted-accounts: $(ARCHIVE)
	@cd bindings/rust && $(WITH_ARCHIVE) cargo run --offline --locked --quiet --release --example sorted_accounts -- $(ACCOUNTS) $(ACCOUNT_CALLS)

HISTORIES := 24
HISTORY_CALLS := 3000

copies: $(ARCHIVE)
	@cd bindings/rust && $(WITH_ARCHIVE) cargo build --offline --locked --quiet --release --example copies
	@bindings/rust/target/release/examples/copies $(HISTORIES) $(HISTORY_CALLS)

facts:
	@scripts/facts.py

fmt:
ifeq ($(RT),)
	@echo "$(NO_RT)" >&2; exit 2
else
	@for crate in crates/*/; do (cd $$crate && rt fmt >/dev/null) || exit 1; done
endif


CARGO := $(shell command -v cargo 2>/dev/null)
NO_CARGO := cargo is missing: the comparison builds Rust

compare-build: $(ARCHIVE)
ifeq ($(CARGO),)
	@echo "$(NO_CARGO)" >&2; exit 2
else
	@cd compare && cargo build --offline --locked --release --quiet
endif

compare: compare-build
	@compare/target/release/compare --small

compare-full: compare-build
	@compare/target/release/compare

compare-sample: compare-build
	@compare/target/release/compare --sample > target/sample.txt && mv target/sample.txt compare/sample.txt
	@$(MAKE) vectors

vectors:
	@python3 compare/replayed.py compare/sample.txt sample/vectors.txt crates/test_vectors

bench: compare-build
	@cd compare && target/release/bench ../docs

all-checks:
	@$(MAKE) test
	@$(MAKE) c-test
	@$(MAKE) bindings
	@$(MAKE) compare
