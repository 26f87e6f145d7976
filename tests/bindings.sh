#!/usr/bin/env bash
# Builds and runs the C, Rust and Python examples; each must print what the reference emulator computed. The reasons to refuse a call have
# the same numbers and read alike in all three. The Python module's own checks run too.
# The static library comes first: tests/build.sh host.
set -euo pipefail
cd "$(dirname "$0")/.."
. tests/tools.sh

library=${FM8502_LIB_DIR:-target/staticlib}
out=$(mktemp -d)
trap 'rm -rf "$out"' EXIT

# LANGUAGE COMMAND..: what COMMAND prints is the stored text
prints_expected() {
    language=$1
    shift
    "$@" >"$out/text"
    diff "$out/text" bindings/expected.txt >&2 || { echo "bindings: $language prints something else" >&2; exit 1; }
}

# LANGUAGE: the reasons on standard input, each after its number, are the header's
says_reasons() {
    diff - "$out/reasons" >&2 || { echo "bindings: $1 gives other reasons to refuse than include/fm8502.h" >&2; exit 1; }
}

# The header has a reason for each number, in a comment; Rust has pairs of the two, and Python a dictionary.
sed -n '/Refused: the numbers/,/FM8502_STOPPED/s,.* = \([0-9]*\)\, */\* \(.*\) \*/,\1 \2,p' include/fm8502.h | head -n -1 >"$out/reasons"
[ "$(wc -l <"$out/reasons")" -eq 18 ] || { echo "bindings: include/fm8502.h has not eighteen reasons" >&2; exit 1; }
sed -n '/REASONS/,/^]/s/^    (\([0-9]*\), "\(.*\)"),$/\1 \2/p' bindings/rust/src/refused.rs | says_reasons Rust
sed -n '/_REASONS = /,/^}/s/^    \([0-9]*\): "\(.*\)",$/\1 \2/p' bindings/python/fm8502.py | says_reasons Python

cc -O2 -std=c11 -Wall -Wextra -Werror -Iinclude bindings/c/example.c "$library/libhost.a" -o "$out/example"
prints_expected C "$out/example" examples

cargo build --quiet --release --offline --manifest-path bindings/rust/Cargo.toml --example stacking
prints_expected Rust bindings/rust/target/release/examples/stacking examples

bash bindings/python/build.sh
prints_expected Python env PYTHONDONTWRITEBYTECODE=1 python3 bindings/python/example.py examples
PYTHONDONTWRITEBYTECODE=1 python3 bindings/python/checks.py
