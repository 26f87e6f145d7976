#!/usr/bin/env bash
# Proves and builds what the tests and the bindings use, where a source has changed: bash tests/build.sh NAME..
# Of host, the static library: target/staticlib/libhost.a. Of a program: target/bin/NAME.
set -euo pipefail
cd "$(dirname "$0")/.."
. tests/toolchain.sh

for name in "$@"; do
    if [ "$name" = host ]; then
        (cd crates/host && rt lib)
        mkdir -p target/staticlib
        cp crates/host/out/libhost.a target/staticlib/
    else
        # rt run builds a program and runs it: here on no input, for which it ends at once
        (cd "crates/$name" && rt run </dev/null >/dev/null)
        mkdir -p target/bin
        cp "crates/$name/out/$name" target/bin/
    fi
done
