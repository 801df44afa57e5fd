#!/bin/bash
# Measures load sessions of the program, which have their files, disk and tools in memory: by the clock at 200 and 2,000 units beside sha256sum of 512 MiB, the
# medians of five rounds; the memory at 2,000; and, where valgrind is there, the instructions that callgrind counts at 200 and at 2,000 units, and at 200 with
# 1, 4 and 64 tools at once, each less those of one unit. ODIN names the program, else it is the one that was built here.
set -eu
export LC_ALL=C
cd "$(dirname "$0")/.."
odin=$(realpath "${ODIN:-crates/odin/out/odin}")
work=$(mktemp -d)
trap 'rm -rf "$work"' EXIT

# The seconds that a command takes, without its output.
seconds() {
    local start=$EPOCHREALTIME
    "$@" > /dev/null
    awk -v a="$start" -v b="$EPOCHREALTIME" 'BEGIN { printf "%.4f\n", b - a }'
}
median() { sort -n "$work/$1" | sed -n 3p; }

head -c 536870912 /dev/zero > "$work/zeros"
for _ in 1 2 3 4 5; do
    seconds "$odin" --load 200 >> "$work/small"
    seconds "$odin" --load 2000 >> "$work/large"
    seconds sha256sum "$work/zeros" >> "$work/sums"
done
awk -v a="$(median small)" -v b="$(median large)" -v c="$(median sums)" 'BEGIN {
    printf "200 units %.3f s, 2,000 units %.3f s, against ten times 200: %.2f; sha256sum over 512 MiB %.3f s, ratio %.2f\n", a, b, b / (10 * a), c, b / c }'
/usr/bin/time -f '2,000 units: %M KiB' "$odin" --load 2000 > /dev/null
command -v valgrind > /dev/null || { echo 'load: no valgrind, so no instructions are counted'; exit 0; }

# The instructions of a load session.
counted() {
    valgrind --tool=callgrind --callgrind-out-file=/dev/null "$odin" --jobs "$1" --load "$2" 2> "$work/counted" > "$work/replies"
    awk '/Collected/ { print $NF }' "$work/counted"
}
none=$(counted 1 1)
one=$(($(counted 1 200) - none))
awk -v a="$one" -v b="$(($(counted 1 2000) - none))" 'BEGIN { printf "200 units %.4g instructions, 2,000 units %.4g, against ten times: %.2f\n", a, b, b / (10 * a) }'
for jobs in 4 64; do
    awk -v jobs="$jobs" -v a="$(($(counted "$jobs" 200) - none))" -v b="$one" 'BEGIN { printf "--jobs %d: %.4g instructions, against --jobs 1: %.2f\n", jobs, a, a / b }'
done
