#!/bin/bash
# Measures the opening of a store of 8,192 sources of 8 KiB by the program, beside sha256sum of its file, in one run: the medians of five rounds, each of three
# runs of either, and once the most memory that the opening held. ODIN names the program, else it is the one that was built here.
set -eu
export LC_ALL=C
cd "$(dirname "$0")/.."
odin=$(realpath "${ODIN:-crates/odin/out/odin}")
work=$(mktemp -d)
trap 'rm -rf "$work"' EXIT
cd "$work"
echo 'type c simple;' > graph
count=${1:-8192}

# The seconds that three runs of a command take, without its output.
seconds() {
    local start=$EPOCHREALTIME
    for _ in 1 2 3; do "$@" < /dev/null > /dev/null; done
    awk -v a="$start" -v b="$EPOCHREALTIME" 'BEGIN { printf "%.3f\n", b - a }'
}
median() { sort -n "$1" | sed -n 3p; }
ratio() { awk -v a="$1" -v b="$2" 'BEGIN { printf "%.2f\n", a / b }'; }

# Each text is another one: its number, and the same bytes.
head -c 8184 /dev/urandom > text
for k in $(seq "$count"); do printf 'put a%d.c 8192\n%08d' "$k" "$k"; cat text; done | "$odin" graph > /dev/null
for _ in 1 2 3 4 5; do
    seconds "$odin" graph >> opens
    seconds sha256sum odin.store >> sums
done
/usr/bin/time -f %M -o memory "$odin" graph < /dev/null
echo "three times: opening the file of $(stat -c %s odin.store) bytes $(median opens) s, sha256sum $(median sums) s, ratio $(ratio "$(median opens)" "$(median sums)")"
echo "memory $(cat memory) KiB; against the texts, $((count * 8)) KiB: $(ratio "$(cat memory)" $((count * 8)))"
