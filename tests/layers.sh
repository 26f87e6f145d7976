#!/usr/bin/env bash
# The folder layers/, which shows the reading order, has each crate of crates.txt once, in the same order, after the crates that it
# rests on: a file with the path of the crate's folder.
set -euo pipefail
cd "$(dirname "$0")/.."

fail() {
    echo "layers: $1" >&2
    exit 1
}

declare -A needs=() listed=()
order=
while IFS=: read -r name list; do
    name=${name%% *} # a static library has a word after its name
    needs[$name]=$list
    order+="$name "
done < <(grep -v -e '^#' -e '^$' crates.txt)

seen=
while read -r entry; do
    name=${entry##*/[0-9]-}
    [ -v "needs[$name]" ] || fail "$entry: crates.txt has no crate of this name"
    [ "${entry%/*}/$(cat "$entry")" -ef "crates/$name" ] || fail "$entry leads elsewhere than to crates/$name"
    [ ! -v "listed[$name]" ] || fail "$name stands twice"
    for need in ${needs[$name]}; do
        # the toolchain's own crates are not in crates.txt
        [ ! -v "needs[$need]" ] || [ -v "listed[$need]" ] || fail "$name stands before $need, which it rests on"
    done
    listed[$name]=1
    seen+="$name "
done < <(find layers -type f | LC_ALL=C sort)

for name in "${!needs[@]}"; do
    [ -v "listed[$name]" ] || fail "$name is missing"
done
[ "$seen" = "$order" ] || fail "another order than that of crates.txt: $seen"
