# shellcheck shell=bash
# Finds the commands that the scripts need: rt, which must be there, and cargo, cc and python3, which are installed where they are missing.
# shellcheck source=tests/toolchain.sh
. "${BASH_SOURCE[0]%/*}/toolchain.sh" || return 1
PATH=$PATH:~/.cargo/bin

# Debian's package for each command that is missing.
missing=
for pair in cargo:cargo cc:gcc python3:python3; do
    command -v "${pair%%:*}" >/dev/null || missing="$missing ${pair#*:}"
done
if [ -n "$missing" ]; then
    echo "installing:$missing" >&2
    # shellcheck disable=SC2086
    if ! { apt-get update -q && apt-get install -y -q $missing; } >/dev/null; then
        echo "could not install:$missing" >&2
        return 1
    fi
fi
