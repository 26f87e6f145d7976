# shellcheck shell=bash
# Finds rt, the command of the Rattle toolchain, on the PATH or where the toolchain is installed by default. It is not installed here.
PATH=$PATH:/opt/rattle/bin
export PATH

if ! command -v rt >/dev/null; then
    echo "The Rattle toolchain's command rt is not on the PATH: install the toolchain first." >&2
    return 1
fi
