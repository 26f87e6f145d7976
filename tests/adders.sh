#!/usr/bin/env bash
# The proved arithmetic unit with each adder, on all pairs of 8 bits and on random ones of 16 and 32, against the reference emulator's adders.
# Both programs are built already: tests/build.sh crosscheck, and tests/generate.sh builds the generator.
set -euo pipefail
cd "$(dirname "$0")/.."

cases=harness/target/release/crosscheck_cases
work=$(mktemp -d)
trap 'rm -rf "$work"' EXIT

"$cases" sums-stdin >"$work/input"
"$cases" sums-stdout >"$work/due"
target/bin/crosscheck <"$work/input" >"$work/printed"
if ! cmp -s "$work/due" "$work/printed"; then
    echo "adders: not what the reference gives (< its, > the proved unit's):" >&2
    diff "$work/due" "$work/printed" | head -n 5 >&2 || true
    exit 1
fi
echo "$(wc -l <"$work/due") sums alike, with the ripple adder and with the adder by halves"
