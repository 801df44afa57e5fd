#!/bin/bash
# Measures the program at 4 puts of 16 MiB into a new store, beside sha256sum of the same input and a copy of it that is synced, in one run: the
# medians of five rounds. The memory is measured once. ODIN names the program, else it is the one that was built here.
set -eu
export LC_ALL=C
cd "$(dirname "$0")/.."
odin=$(realpath "${ODIN:-crates/odin/out/odin}")
work=$(mktemp -d)
trap 'rm -rf "$work"' EXIT
cp crates/odin/data/units.dg "$work"
cd "$work"

# The seconds that a command takes over the input, without its output.
seconds() {
    local start=$EPOCHREALTIME
    "$@" < puts > /dev/null
    awk -v a="$start" -v b="$EPOCHREALTIME" 'BEGIN { printf "%.4f\n", b - a }'
}
median() { sort -n | sed -n 3p; }

for n in 1 2 3 4; do
    printf 'put a%s.c 16777216\n' "$n"
    head -c 16777216 /dev/urandom
done > puts

# Each round has a store of its own, and so has a copy of as many bytes that is synced.
ours() { rm -f odin.store; seconds "$odin" units.dg; }
copied() { rm -f copy; seconds dd of=copy bs=1M iflag=fullblock oflag=dsync status=none; }

for _ in 1 2 3 4 5; do
    ours >> odin
    copied >> dd
    seconds sha256sum >> sha
done
rm -f odin.store
/usr/bin/time -f %M -o memory "$odin" units.dg < puts > replies

awk -v a="$(median < odin)" -v b="$(median < sha)" 'BEGIN { printf "puts %s s, sha256sum %s s, ratio %.2f\n", a, b, a / b }'
awk -v a="$(median < odin)" -v b="$(median < dd)" 'BEGIN { printf "a synced copy %s s, ratio %.2f\n", b, a / b }'
awk -v a="$(cat memory)" 'BEGIN { printf "memory %d KiB, texts 65536 KiB, ratio %.2f\n", a, a / 65536 }'
cat replies
