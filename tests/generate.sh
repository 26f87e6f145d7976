#!/usr/bin/env bash
# Makes the generated files again from their seeds and sources, with the reference emulator's results.
# --check: changes nothing, and fails where a file is not what its generator writes.
set -euo pipefail
cd "$(dirname "$0")/.."
. tests/tools.sh

new=$(mktemp -d)
trap 'rm -rf "$new"' EXIT
cargo build --quiet --release --offline --manifest-path reference/Cargo.toml
cargo build --quiet --release --offline --manifest-path harness/Cargo.toml
make_image=reference/target/release/make_image
ledger=reference/target/release/ledger
bin=harness/target/release

# FILE COMMAND..: what COMMAND writes is FILE
made() {
    file=$1
    shift
    "$@" >"$new/out"
    if [ "$check" = yes ]; then
        cmp -s "$new/out" "$file" || { echo "$file is stale: run tests/generate.sh" >&2; exit 1; }
    else
        mkdir -p "$(dirname "$file")"
        cp "$new/out" "$file"
    fi
}

check=no
[ "${1:-}" != --check ] || check=yes

made crates/definition_cases/specs/Cases.antt "$bin/definition_cases"
made crates/crosscheck/stdin "$bin/crosscheck_cases" stdin
made crates/crosscheck/stdout "$bin/crosscheck_cases" stdout

made examples/stacking.image "$make_image" -w examples/stacking.words -m 48 -r 1=18 -r 4=4 -r 5=3 -r 6=F
made examples/outside.image "$make_image" -w examples/outside.words -m 11 -r 1=8 -r 2=4 -r 3=4
made examples/halted.image "$make_image" -w examples/halted.words -r 1=7 -r 2=3 -r 3=4
made examples/loader.image "$make_image" -w examples/loader.words -r 1=11 -r 3=5 -r 4=8
made examples/restart.image "$make_image" -w examples/restart.words -r 0=10 -r 1=1A -r 2=14 -r 3=4 -r 4=10
made examples/line.image "$make_image" -w examples/line.words -m 22 -r 4=4 -r 6=B --version 2
for name in stacking outside halted loader restart line; do
    made "examples/$name.ledger" "$ledger" <"examples/$name.image"
done

made bindings/expected.txt "$bin/example_text" examples
