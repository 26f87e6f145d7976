#!/usr/bin/env bash
# The ledger program on whole inputs, against the reference emulator's ledger and the paper's words.
# Both are built already: tests/build.sh ledger, and tests/generate.sh builds the reference's programs.
set -euo pipefail
cd "$(dirname "$0")/.."

ledger=target/bin/ledger
make_image=reference/target/release/make_image
work=$(mktemp -d)
trap 'rm -rf "$work"' EXIT

# NAME EXPECTED: the input in $work/input prints EXPECTED, and the same as the reference's ledger
prints() {
    "$ledger" <"$work/input" >"$work/text"
    reference/target/release/ledger <"$work/input" | cmp -s - "$work/text" || { echo "ledger: $1: not what the reference prints" >&2; exit 1; }
    [ "$(tail -n 1 "$work/text")" = "$2" ] || { echo "ledger: $1: ends with $(tail -n 1 "$work/text")" >&2; exit 1; }
}

"$make_image" 00010021 00050421 >"$work/input"
prints "the paper's example" "outside 2 18"
: >"$work/input"
prints "no input" "refused 8"
"$make_image" -m 4096 00010021 >"$work/input"
prints "the largest memory" "finished 16 144"
head -c 100000 /dev/zero >>"$work/input"
prints "an input longer than is read" "refused 15"
"$make_image" -m 4097 00010021 >"$work/input"
prints "a larger memory" "refused 14"
"$make_image" -r 0=FFFFFFFF 00010021 >"$work/input"
prints "r0 at the last address" "outside 0 0"
# the word at 0 copies the word at r1 over the next address, r2, which then runs
"$make_image" -r 1=3 -r 2=1 00000149 00000000 00010021 00010061 >"$work/input"
prints "a program that stores over itself" "outside 4 38"
# bit 14 and bits 20 to 31
for bit in 14 {20..31}; do
    "$make_image" 00010021 "$(printf %08X "$((0x00010021 | 1 << bit))")" >"$work/input"
    prints "a word with bit $bit, which is no instruction" "halted 1 9"
done
"$make_image" -m 17 -r 1=7 00004000 >"$work/input"
prints "the first word is no instruction" "halted 0 0"
# sixteen instructions are run, and no word is looked at after them
ones=$(printf '00010021 %.0s' {1..15})
"$make_image" $ones 00010021 00100021 >"$work/input"
prints "the seventeenth word is no instruction" "finished 16 144"
"$make_image" $ones 00100021 >"$work/input"
prints "the sixteenth word is no instruction" "halted 15 135"
# the word at 0 copies r1 over the next address, r2: a word that is no instruction, and one that is
"$make_image" -r 1=80010021 -r 2=1 00000141 00010021 >"$work/input"
prints "a program that stores a word that is no instruction" "halted 1 10"
"$make_image" -r 1=00010021 -r 2=1 00000141 80010021 >"$work/input"
prints "a program that repairs a word that is no instruction" "outside 2 19"
for name in stacking outside halted loader restart line; do
    cp "examples/$name.image" "$work/input"
    prints "examples/$name.image" "$(tail -n 1 "examples/$name.ledger")"
done

# ./ledger builds the program again where a source is newer
touch -d 2000-01-01 "$ledger"
./ledger examples/stacking.image 2>"$work/text" | cmp -s - examples/stacking.ledger || { echo "ledger: after another build: not examples/stacking.ledger" >&2; cat "$work/text" >&2; exit 1; }
[ "$ledger" -nt crates.txt ] || { echo "ledger: an old program was not built again" >&2; exit 1; }
