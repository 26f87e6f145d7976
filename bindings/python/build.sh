#!/usr/bin/env bash
# Makes target/python/libfm8502.so, which fm8502.py loads, out of the static library: tests/build.sh host comes first.
# FM8502_LIB_DIR: the folder of libhost.a, if another than target/staticlib.
set -euo pipefail
cd "$(dirname "$0")/../.."

archive=${FM8502_LIB_DIR:-target/staticlib}/libhost.a
mkdir -p target/python
cc -shared -o target/python/libfm8502.so -Wl,--whole-archive "$archive" -Wl,--no-whole-archive
