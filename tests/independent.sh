#!/usr/bin/env bash
# The independent reader's own tests: the papers' samples and lines, and every refusal among generated texts.
# It needs cargo and rustc, and no network.
set -eu
cd "$(dirname "$0")/.."

export CARGO_TARGET_DIR=target/independent
mkdir -p "$CARGO_TARGET_DIR"
log=$CARGO_TARGET_DIR/tests.log
cargo test --quiet --release --offline --manifest-path independent/Cargo.toml > "$log" 2>&1 || { cat "$log"; exit 1; }
grep -h "^test result" "$log"
