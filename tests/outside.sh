#!/usr/bin/env bash
# The tests outside Rattle: the folder that shows the reading order; the reference emulator's own; whether the generated files are those of
# their seeds and sources; both adders, the ledger program and the proved calls against the reference emulator on generated cases; the C,
# Rust and Python bindings.
set -euo pipefail
cd "$(dirname "$0")/.."
. tests/tools.sh

# The programs and the static library are built on one core while the other tests the reference.
log=$(mktemp)
bash tests/build.sh crosscheck ledger host >"$log" 2>&1 &
built=$!
trap 'kill "$built" 2>/dev/null || true; rm -f "$log"' EXIT

echo "outside: the crates in reading order"
bash tests/layers.sh

echo "outside: the reference emulator's tests"
cargo test --quiet --release --offline --manifest-path reference/Cargo.toml

echo "outside: generated files are those of their seeds and sources"
bash tests/generate.sh --check

echo "outside: the programs and the static library"
wait "$built" || { cat "$log" >&2; exit 1; }

echo "outside: both adders against the reference emulator's"
bash tests/adders.sh

echo "outside: the ledger program"
bash tests/ledger.sh

echo "outside: the proved calls against the reference emulator"
cargo build --quiet --release --offline --manifest-path harness/Cargo.toml --features library --bin differential
harness/target/release/differential --programs 10000 --images 100000 --seed 1

echo "outside: the bindings"
bash tests/bindings.sh
